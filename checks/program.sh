#!/usr/bin/env bash
# Runs the built program on good and bad inputs, as its users do, and compares what it writes to standard output, what it
# writes to standard error, and its status. The inputs are files of checks/program/.
#
# Usage: checks/program.sh [PROGRAM]     (without PROGRAM: ./varlink at the top, which builds what is missing)
set -u
top=$(cd "$(dirname "$0")/.." && pwd)
program=${1:-$top/varlink}
cd "$top/checks/program" || exit 1
work=$(mktemp -d)
trap 'rm -rf "$work"' EXIT
passed=0
failed=0

# The case of this name, its status, the file with the wanted output (- for none) and the wanted text behind `varlink: ` on
# standard error (- for none), against the status and the files of a run.
compare() {
    local name=$1 status=$2 output=$3 line=$4 got=$5
    [ "$output" = - ] && output=/dev/null
    if [ "$line" = - ]; then : >"$work/line"; else printf 'varlink: %s\n' "$line" >"$work/line"; fi
    if [ "$got" = "$status" ] && cmp -s "$output" "$work/out" && cmp -s "$work/line" "$work/err"; then
        passed=$((passed + 1))
        return
    fi
    failed=$((failed + 1))
    echo "checks/program.sh: $name: status $got, wanted $status; output and standard error were:"
    head -c 300 "$work/out" | tr '\0' '~'
    head -c 300 "$work/err"
    echo "and wanted:"
    head -c 300 "$output" | tr '\0' '~'
    cat "$work/line"
}

# A run with these words, its input being that of this call.
expect() {
    local name=$1 status=$2 output=$3 line=$4
    shift 4
    timeout 60 "$program" "$@" >"$work/out" 2>"$work/err"
    compare "$name" "$status" "$output" "$line" $?
}

# The same where nothing can be written to standard output: it is a full device, a closed pipe, or no open file.
expect_unwritten() {
    local name=$1 line=$2
    shift 2
    : >"$work/out"
    timeout 60 "$program" "$@" <"$work/in" >/dev/full 2>"$work/err"
    compare "$name, a full device" 6 - "$line" $?
    exec 3> >(:)
    wait $! # its reader is gone
    (
        trap '' PIPE
        timeout 60 "$program" "$@" <"$work/in" >&3 2>"$work/err"
    )
    compare "$name, a closed pipe" 6 - "$line" $?
    exec 3>&-
    timeout 60 "$program" "$@" <"$work/in" >&- 2>"$work/err"
    compare "$name, a closed output" 6 - "$line" $?
}

# ---- words

for words in "" "Session" "session session x" "--help" "help help" "check" "format" "sheet" "sheet --a" "sheet a b" "check a b" "check --a" "lint good.varlink" \
    "work" "work 0" "work 03" "work +3" "work 10001" "work 3 3" "work x" \
    "compat" "compat good.varlink" "compat a b c" "compat --a b" "compat a --b"; do
    # shellcheck disable=SC2086
    expect "the words '$words'" 1 - 'bad words' $words </dev/null
done
expect 'a word that is no text' 1 - 'bad words' check $'\xff' </dev/null

# ---- help

printf '%s\n' check format sheet session work help serve resolver call resolve compat >"$work/help"
expect 'help' 0 "$work/help" - help </dev/null
: >"$work/in"
expect_unwritten help 'write fault' help

# ---- work

printf 'definition 120\ncalls 162\nreplies 69\ntotal 6\n' >"$work/figures"
expect 'the work of three methods' 0 "$work/figures" - work 3 </dev/null
: >"$work/in"
expect_unwritten 'the work of three methods' 'write fault' work 3

# ---- session

expect 'no calls' 0 - - session </dev/null
expect 'one call' 0 info.replies - session <info.calls
expect 'calls of every kind' 0 calls.replies - session <good.calls
expect 'a message that is no call' 3 info.replies 'message 1 is no call' session <bad.calls
expect 'a call that is cut' 3 info.replies 'cut after 40 bytes' session <cut.calls
head -c 20 info.calls >"$work/front"
tail -c +21 info.calls >"$work/back"
{ cat "$work/front"; sleep 0.3; cat "$work/back"; } | expect 'a call in two pieces' 0 info.replies - session
expect 'an input that cannot be read' 5 - 'read fault' session <.
for length in 4194304 4194305; do
    { head -c 40 info.calls; head -c $((length - 40)) /dev/zero | tr '\0' ' '; printf '\0'; } >"$work/$length"
done
expect 'a call of 4,194,304 bytes' 0 info.replies - session <"$work/4194304"
expect 'a call of 4,194,305 bytes' 3 - 'message 0 is too long' session <"$work/4194305"
cp info.calls "$work/in"
expect_unwritten session 'write fault' session
timeout 60 "$program" session <bad.calls >"$work/out" 2>/dev/full
got=$?
: >"$work/err"
compare 'a line that cannot be written' 3 info.replies - "$got"

# a client that waits for each reply before its next call
coproc SERVICE { exec timeout 60 "$program" session 2>"$work/err"; }
: >"$work/out"
for _ in 1 2 3; do
    cat info.calls >&"${SERVICE[1]}"
    IFS= read -r -d '' -t 20 reply <&"${SERVICE[0]}" || break
    printf '%s\0' "$reply" >>"$work/out"
done
service=$SERVICE_PID
exec {SERVICE[1]}>&-
wait "$service"
got=$?
cat info.replies info.replies info.replies >"$work/thrice"
compare 'a client that waits for each reply' 0 "$work/thrice" - "$got"

# ---- a session of a sheet

# a text with calls, each in a line that begins with `    > `, and their replies, in lines that begin with `    < `
locks=$top/examples/locks
sed -n 's/^    > //p' "$locks.md" | tr '\n' '\0' >"$work/in"
sed -n 's/^    < //p' "$locks.md" | tr '\n' '\0' >"$work/replies"
expect 'the calls of the locks' 0 "$work/replies" - session "$locks.json" <"$work/in"
expect_unwritten 'the calls of the locks' 'write fault' session "$locks.json"
printf 'interfaces 1\nregisters 3\nrules 4\n' >"$work/counts"
expect 'the sheet of the locks' 0 "$work/counts" - sheet "$locks.json" </dev/null
expect 'the definition of the locks' 0 "$top/examples/org.example.locks.varlink" - format "$top/examples/org.example.locks.varlink" </dev/null
printf '%s\0abc' '{"method":"org.example.count.Echo","upgrade":true}' >"$work/in"
printf '%s\0abc' '{"parameters":{}}' >"$work/replies"
expect 'raw bytes after an upgrade' 0 "$work/replies" - session "$top/examples/count.json" <"$work/in"
expect 'a session of a missing sheet' 5 - 'cannot read missing.json' session missing.json <info.calls
expect 'a session of no sheet' 2 - 'not JSON' session good.varlink <info.calls

# ---- check and format

echo 'ok org.example.count' >"$work/ok"
echo 'ok a.b' >"$work/ok-short"
expect 'a good definition' 0 "$work/ok" - check good.varlink </dev/null
expect 'a good definition' 0 good.canonical - format good.varlink </dev/null
expect 'a canonical text' 0 good.canonical - format good.canonical </dev/null
while IFS='|' read -r file line; do
    for word in check format; do
        expect "$word on $file" 2 - "$line" "$word" "$file" </dev/null
    done
done <refusals
for word in check format; do
    expect "$word on a folder" 5 - 'cannot read .' "$word" . </dev/null
    expect "$word on a missing file" 5 - 'cannot read missing.varlink' "$word" missing.varlink </dev/null
done
printf 'interface a.b\n#' >"$work/longest"
head -c $((1048576 - 15)) /dev/zero | tr '\0' x >>"$work/longest"
{ cat "$work/longest"; printf x; } >"$work/longer"
expect 'a file of 1,048,576 bytes' 0 "$work/ok-short" - check "$work/longest" </dev/null
expect 'a file of 1,048,577 bytes' 2 - "$work/longer is too long" check "$work/longer" </dev/null
{ printf 'interface a.b\n\n'; tail -c +15 "$work/longest"; echo; } >"$work/longest-canonical"
expect 'a file of 1,048,576 bytes' 0 "$work/longest-canonical" - format "$work/longest" </dev/null
expect 'a file of 1,048,577 bytes' 2 - "$work/longer is too long" format "$work/longer" </dev/null
: >"$work/in"
expect_unwritten check 'write fault' check good.varlink
expect_unwritten format 'write fault' format good.varlink

# ---- compat

count=$top/examples/org.example.count.varlink
next=$top/examples/org.example.count.next.varlink
echo compatible >"$work/compatible"
expect 'a definition and itself' 0 "$work/compatible" - compat "$count" "$count" </dev/null
expect 'a definition that can take the place' 0 "$work/compatible" - compat "$count" "$next" </dev/null
expect 'the two exchanged' 10 - 'differs at Add output level' compat "$next" "$count" </dev/null
expect 'a definition that breaks callers' 10 - 'differs at Note input entry day' \
    compat "$count" "$top/examples/org.example.count.breaking.varlink" </dev/null
while IFS='|' read -r line change; do
    sed "$change" "$count" >"$work/new"
    expect "a definition with $change" 10 - "$line" compat "$count" "$work/new" </dev/null
done <differences
expect 'an old file that is missing' 5 - 'cannot read missing' compat missing good.varlink </dev/null
expect 'a new file that is missing' 5 - 'cannot read missing' compat good.varlink missing </dev/null
expect 'two files that are missing' 5 - 'cannot read missing' compat missing absent </dev/null
expect 'a missing file behind a bad one' 5 - 'cannot read missing' compat bad-byte.varlink missing </dev/null
expect 'a bad file behind a good one' 2 - 'bad byte at 14' compat good.varlink bad-byte.varlink </dev/null
expect 'two bad files' 2 - 'type A is not defined' compat unknown.varlink bad-byte.varlink </dev/null
expect 'a missing file behind one that is too long' 2 - "$work/longer is too long" compat "$work/longer" missing </dev/null
expect 'a file that is too long behind a bad one' 2 - "$work/longer is too long" compat bad-byte.varlink "$work/longer" </dev/null
expect 'two files of 1,048,576 bytes' 0 "$work/compatible" - compat "$work/longest" "$work/longest" </dev/null
expect_unwritten compat 'write fault' compat "$count" "$next"

# ---- sheet

sheet=$top/examples/count.json
printf 'interfaces 1\nregisters 2\nrules 4\n' >"$work/counts"
expect 'a good sheet' 0 "$work/counts" - sheet "$sheet" </dev/null
while IFS='|' read -r line change; do
    sed "$change" "$sheet" >"$work/sheet"
    expect "a sheet with $change" 2 - "$line" sheet "$work/sheet" </dev/null
done <sheet-refusals
expect 'a sheet that is a folder' 5 - 'cannot read .' sheet . </dev/null
expect 'a missing sheet' 5 - 'cannot read missing.json' sheet missing.json </dev/null
length=$(wc -c <"$sheet")
{ cat "$sheet"; head -c $((16777216 - length)) /dev/zero | tr '\0' ' '; } >"$work/longest"
{ cat "$work/longest"; printf ' '; } >"$work/longer"
expect 'a sheet of 16,777,216 bytes' 0 "$work/counts" - sheet "$work/longest" </dev/null
expect 'a sheet of 16,777,217 bytes' 2 - "$work/longer is too long" sheet "$work/longer" </dev/null
: >"$work/in"
expect_unwritten sheet 'write fault' sheet "$sheet"

# ---- call and resolve

# A run with these words against a peer at the socket `peer`, which is to be asked what the file `asked` holds, and says these
# texts between `|`, one to each connection. `~` stands for NUL.
expect_peer() {
    local name=$1 status=$2 output=$3 line=$4 says=$5
    shift 5
    rm -f "$work/peer"
    mapfile -t -d '|' sayings < <(printf '%s|' "$says")
    "$top/checks/peer.py" "$work/peer" "${sayings[@]}" >"$work/heard" &
    local peer=$!
    for _ in $(seq 200); do
        [ -S "$work/peer" ] && break
        sleep 0.05
    done
    expect "$name" "$status" "$output" "$line" "$@" </dev/null
    wait "$peer"
    local heard=$?
    cp "$work/heard" "$work/out"
    : >"$work/err"
    compare "$name, what was asked" 0 "$work/asked" - "$heard"
}

at=unix:$work/peer
echo '{"method":"org.example.count.Add","parameters":{"amount":5}}~' >"$work/asked"
add=(call --at "$at" org.example.count.Add '{"amount":5}')
echo '{"parameters":{"total":5}}' >"$work/replies"
expect_peer 'a call' 0 "$work/replies" - '{"parameters":{"total":5}}~' "${add[@]}"
expect_peer 'a call and a peer that closes' 3 - 'ended before reply 0' '' "${add[@]}"
expect_peer 'a call and a reply that is cut' 3 - 'ended before reply 0' '{}' "${add[@]}"
expect_peer 'a call and no reply' 3 - 'reply 0 is no reply' '[]~' "${add[@]}"
expect_peer 'a call and more than was asked for' 3 - 'reply 0 continues' '{"continues":true}~{}~' "${add[@]}"
echo '{"error":"org.example.count.Negative","parameters":{"amount":-1}}' >"$work/replies"
expect_peer 'a call and an error' 4 "$work/replies" 'error org.example.count.Negative' \
    '{"error":"org.example.count.Negative","parameters":{"amount":-1}}~' "${add[@]}"
echo '{"method":"org.example.count.List","more":true,"parameters":{}}~' >"$work/asked"
printf '%s\n' '{"continues":true}' '{}' >"$work/replies"
expect_peer 'a call for more' 0 "$work/replies" - '{"continues":true}~{}~' call --more --at "$at" org.example.count.List
echo '{"method":"org.example.count.List","oneway":true,"parameters":{}}~' >"$work/asked"
expect_peer 'a oneway call' 0 - - '' call --oneway --at "$at" org.example.count.List

ask='{"method":"org.varlink.resolver.Resolve","parameters":{"interface":"org.example.count"}}~'
missing='{"error":"org.varlink.resolver.InterfaceNotFound","parameters":{"interface":"org.example.count"}}~'
echo "$ask" >"$work/asked"
resolve=(resolve --resolver "$at" org.example.count)
echo 'unix:/run/org.example.count' >"$work/replies"
expect_peer 'an address' 0 "$work/replies" - '{"parameters":{"address":"unix:/run/org.example.count;mode=0666"}}~' "${resolve[@]}"
expect_peer 'an interface that nobody has' 9 - 'no address of org.example.count' "$missing" "${resolve[@]}"
expect_peer 'a bad resolver' 3 - 'bad resolver' '{}~' "${resolve[@]}"
echo '{"error":"org.varlink.service.InterfaceNotFound","parameters":{"interface":"org.example.count"}}' >"$work/replies"
expect_peer 'a call of an interface that nobody has' 9 "$work/replies" 'no address of org.example.count' "$missing" \
    call --resolver "$at" org.example.count.Add
expect_peer 'a call and a bad resolver' 3 - 'bad resolver' '{}~' call --resolver "$at" org.example.count.Add
{ echo "$ask"; echo '{"method":"org.example.count.Add","parameters":{"amount":5}}~'; } >"$work/asked"
echo '{"parameters":{"total":5}}' >"$work/replies"
expect_peer 'a call where the resolver says' 0 "$work/replies" - \
    "{\"parameters\":{\"address\":\"$at\"}}~|{\"parameters\":{\"total\":5}}~" \
    call --resolver "$at" org.example.count.Add '{"amount":5}'

# over a bridge: a program that says what it is told, and then the reply
printf '#!/bin/sh\necho "$@" >"%s"\nprintf "{}\\0"\ncat >/dev/null\n' "$work/told" >"$work/bridge"
chmod +x "$work/bridge"
echo '{}' >"$work/replies"
expect 'a call over a bridge' 0 "$work/replies" - call --resolver unix:/r --child "$work/bridge" a.b.C </dev/null
echo 'bridge --resolver unix:/r' >"$work/replies"
cp "$work/told" "$work/out"
: >"$work/err"
compare 'what the bridge is told' 0 "$work/replies" - 0
expect 'a bridge that is missing' 5 - 'link fault' call --resolver unix:/r --child "$work/missing" a.b.C </dev/null

rm -f "$work/peer"
expect 'a call where nobody listens' 5 - 'link fault' "${add[@]}" </dev/null
expect 'a resolver that does not listen' 5 - 'link fault' "${resolve[@]}" </dev/null
for words in "call" "call a.b.C" "call --at $at" "call --at unix: a.b.C" "call --at $at a.b.C [1]" \
    "resolve a.b" "resolve --resolver $at a.b c.d" "serve $at" "serve unix: s.json" "serve $at s.json --workers 65" "resolver $at r.json --forget" "bridge --to $at"; do
    # shellcheck disable=SC2086
    expect "the words '$words'" 1 - 'bad words' $words </dev/null
done
expect 'a parameter that is no whole number' 1 - 'bad words' call --at "$at" a.b.C '{"x":1.5}' </dev/null

echo "program: $passed passed, $failed failed"
[ "$failed" = 0 ]
