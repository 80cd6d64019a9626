#!/usr/bin/env bash
# Runs `serve` and `resolver` of the built program in the background, calls them as peers do, well and badly, and compares what
# comes back, what the program writes, its status, and which files it leaves. Each server has as many connections as its
# cases open, and so ends by itself.
#
# Usage: checks/serving.sh [PROGRAM]     (without PROGRAM: ./varlink at the top, which builds what is missing)
set -u
top=$(cd "$(dirname "$0")/.." && pwd)
program=${1:-$top/varlink}
case $program in */*) program=$(cd "$(dirname "$program")" && pwd)/$(basename "$program") ;; esac
work=$(mktemp -d)
servers=()
passed=0
failed=0
cd "$work" || exit 1

# Ends the servers that still run, and removes what was written.
clear_away() {
    for server in "${servers[@]}"; do
        kill "$server" 2>"$work/end"
    done
    rm -rf "$work"
}
trap clear_away EXIT

# The case of this name, its status, the file with the wanted output (- for none) and the wanted text behind `varlink: ` on
# standard error (- for none), against the status and the files of a run.
compare() {
    local name=$1 status=$2 output=$3 line=$4 got=$5
    [ "$output" = - ] && output=/dev/null
    if [ "$line" = - ]; then : >"$work/line"; else printf 'varlink: %s\n' "$line" >"$work/line"; fi
    if [ "$got" = "$status" ] && cmp -s "$output" "$work/out" && cmp -s "$work/line" "$work/err"; then
        passed=$((passed + 1))
        return
    fi
    failed=$((failed + 1))
    echo "checks/serving.sh: $name: status $got, wanted $status; output and standard error were:"
    head -c 600 "$work/out" | tr '\0' '~'
    head -c 600 "$work/err"
    echo "and wanted:"
    head -c 600 "$output" | tr '\0' '~'
    cat "$work/line"
}

# A run with these words, its input being that of this call.
expect() {
    local name=$1 status=$2 output=$3 line=$4
    shift 4
    timeout 60 "$program" "$@" >"$work/out" 2>"$work/err"
    compare "$name" "$status" "$output" "$line" $?
}

# The case of this name, where a command succeeds.
holds() {
    local name=$1
    shift
    if "$@"; then
        passed=$((passed + 1))
    else
        failed=$((failed + 1))
        echo "checks/serving.sh: $name: not so: $*"
    fi
}

is_gone() { [ ! -e "$1" ] && [ ! -L "$1" ]; }

# ---- servers and callers

# Whether somebody listens at an address. No connection is opened for it.
listens() {
    case $1 in
    unix:*) grep -q " 00010000 .* ${1#unix:}\$" /proc/net/unix ;;
    tcp:*) grep -qi "^ *[0-9]*: [0-9A-F]*:$(printf %04X "${1##*:}") 00000000:0000 0A" /proc/net/tcp ;;
    esac
}

# Waits until somebody listens at an address, at most ten seconds.
await() {
    for _ in $(seq 200); do
        listens "$1" && return
        sleep 0.05
    done
    failed=$((failed + 1))
    echo "checks/serving.sh: nobody listens at $1"
}

# Starts a server of this name: a command, an address, a file and options. It ends after a minute at the latest.
start() {
    local name=$1
    shift
    timeout 60 "$program" "$@" >"$work/$name.out" 2>"$work/$name.err" </dev/null &
    server=$!
    servers+=("$server")
    await "$2"
}

# The same of a server that is to be killed: it has the number `server` itself.
start_bare() {
    local name=$1
    shift
    "$program" "$@" >"$work/$name.out" 2>"$work/$name.err" </dev/null &
    server=$!
    servers+=("$server")
    await "$2"
}

# Kills the server that was started last, which has no time to clear away.
kill_hard() {
    kill -9 "$server" 2>"$work/end"
    wait "$server" 2>"$work/end"
    unset 'servers[-1]'
}

# Waits for the end of a server of this name and number, and compares it.
finish() {
    local name=$1 number=$2 status=$3 output=$4 line=$5
    wait "$number"
    local got=$?
    cp "$work/$name.out" "$work/out"
    cp "$work/$name.err" "$work/err"
    compare "$name, its end" "$status" "$output" "$line" "$got"
}

cat >"$work/caller.py" <<'CALLER'
"""A caller: it takes these steps one after another, on links that are opened where they are first named.

Usage: caller.py ADDRESS STEP..

NAME>TEXT sends the text. NAME<COUNT reads so many messages, and prints each in a line behind the name. NAME. tells the service
that nothing more comes, and NAME$ does not; both then print what still comes up to the end. NAME! closes the link. `~` stands
for NUL.
"""
import socket
import sys


def connect(address):
    scheme, _, place = address.partition(":")
    if scheme == "unix":
        link = socket.socket(socket.AF_UNIX)
        link.settimeout(50)
        link.connect(place)
        return link
    host, _, port = place.partition(":")
    return socket.create_connection((host, int(port)), 50)


class Link:
    def __init__(self, name, address):
        self.name, self.link, self.held = name, connect(address), b""

    def message(self):
        while b"\0" not in self.held:
            piece = self.link.recv(65536)
            if not piece:
                self.tell(self.held, " and the end")
                sys.exit(1)
            self.held += piece
        whole, _, self.held = self.held.partition(b"\0")
        self.tell(whole + b"\0")

    def rest(self):
        try:
            while piece := self.link.recv(65536):
                self.held += piece
            self.tell(self.held, " and the end")
        except ConnectionResetError:
            self.tell(self.held, " and a reset")

    def tell(self, told, behind=""):
        print(self.name, told.replace(b"\0", b"~").decode() + behind, flush=True)


def main():
    links = {}
    for step in sys.argv[2:]:
        name, deed, what = step[0], step[1], step[2:]
        if name not in links:
            links[name] = Link(name, sys.argv[1])
        link = links[name]
        if deed == ">":
            link.link.sendall(what.encode().replace(b"~", b"\0"))
        elif deed == "<":
            for _ in range(int(what)):
                link.message()
        elif deed == "!":
            link.link.close()
            del links[name]
        else:
            if deed == ".":
                link.link.shutdown(socket.SHUT_WR)
            link.rest()


try:
    main()
except OSError as error:
    print(type(error).__name__, error)
    sys.exit(1)
CALLER

# The steps of a caller at an address, whose lines are to be these, each a word before `--`.
expect_caller() {
    local name=$1 address=$2
    shift 2
    : >"$work/wanted"
    while [ "$1" != -- ]; do
        printf '%s\n' "$1" >>"$work/wanted"
        shift
    done
    shift
    timeout 60 python3 "$work/caller.py" "$address" "$@" >"$work/out" 2>"$work/err"
    compare "$name" 0 "$work/wanted" - $?
}

# `Add` of so much, and its reply with a total.
add() { printf '{"method":"org.example.count.Add","parameters":{"amount":%s}}~' "$1"; }
total() { printf '{"parameters":{"total":%s}}~' "$1"; }

sheet=$top/examples/count.json
info='{"method":"org.varlink.service.GetInfo"}~'
told='{"parameters":{"interfaces":["org.varlink.service","org.example.count"],"product":"Count","url":"https://example.org","vendor":"Example","version":"1"}}~'
"$program" help >"$work/out" </dev/null || { echo "checks/serving.sh: $program does not run"; exit 1; }

# ---- words

at=unix:$work/s
for words in "serve" "serve $at" "serve $at a b" "serve nowhere a" "serve unix: a" "serve unix:@a a" "serve tcp:127.0.0.1 a" \
    "serve tcp:127.0.0.1:0 a" "serve tcp:127.0.0.1:65536 a" "serve tcp:127.0.0:80 a" "serve $at a --workers" "serve $at a --workers 0" \
    "serve $at a --workers 65" "serve $at a --workers 01" "serve $at a --workers x" "serve $at a --workers 1 --workers 1" \
    "serve $at a --connections 0" "serve $at a --connections 4294967297" "serve $at a --connections" "serve $at a --forget --forget" \
    "serve $at a --more" "serve --at $at a" "resolver" "resolver $at" "resolver $at a b" "resolver $at a --forget" \
    "resolver $at a --workers 0" "resolver $at a --connections -1"; do
    # shellcheck disable=SC2086
    expect "the words '$words'" 1 - 'bad words' $words </dev/null
done

# ---- files

expect 'a missing sheet' 5 - 'cannot read missing.json' serve "$at" missing.json </dev/null
expect 'a sheet that is a folder' 5 - 'cannot read .' serve "$at" . </dev/null
expect 'no sheet' 2 - 'not JSON' serve "$at" "$top/checks/program/good.varlink" </dev/null
while IFS='|' read -r line change; do
    sed "$change" "$sheet" >"$work/sheet"
    expect "a sheet with $change" 2 - "$line" serve "$at" "$work/sheet" </dev/null
done < <(head -4 "$top/checks/program/sheet-refusals")
{ cat "$sheet"; head -c 16777216 /dev/zero | tr '\0' ' '; } >"$work/longer"
expect 'a sheet of more than 16,777,216 bytes' 2 - "$work/longer is too long" serve "$at" "$work/longer" </dev/null
expect 'a missing registry' 5 - 'cannot read missing.json' resolver "$at" missing.json </dev/null
while IFS='|' read -r line text; do
    printf '%s' "$text" >"$work/registry"
    expect "the registry $text" 2 - "$line" resolver "$at" "$work/registry" </dev/null
done <<'REFUSALS'
not JSON|{
not an object|[]
bad name count|{"count":"unix:/a"}
bad address of org.example.count|{"org.example.count":"/a"}
bad address of org.example.count|{"org.example.count":1}
REFUSALS
{ printf '{}'; head -c 1048576 /dev/zero | tr '\0' ' '; } >"$work/longer"
expect 'a registry of more than 1,048,576 bytes' 2 - "$work/longer is too long" resolver "$at" "$work/longer" </dev/null
holds 'nothing was bound for a bad file' is_gone "$work/s"

# ---- calls

# The cases of a server of two workers that serve two connections each, at an address.
expect_four() {
    local name=$1 at=$2
    expect_caller "$name, two connections at the same time" "$at" \
        "A $(total 5)" "B $(total 5)" "B $(total 12)" "A $(total 12)" 'A  and the end' 'B  and the end' -- \
        "A>$(add 5)" 'A<1' "B>$(add 0)" 'B<1' "B>$(add 7)" 'B<1' "A>$(add 0)" 'A<1' A. B.
    expect_caller "$name, a message that is cut" "$at" "C $(total 13) and the end" -- "C>$(add 1){\"method\":\"org.exa" C.
    expect_caller "$name, a message that is no call" "$at" "D $told and the end" -- "D>${info}[]~" 'D$'
}

start 'two workers' serve "$at" "$sheet" --workers 2 --connections 2
two=$server
holds 'a socket is there' test -S "$work/s"
expect_four 'two workers' "$at"
echo 'entries 5' >"$work/entries"
finish 'two workers' "$two" 0 "$work/entries" -
holds 'the socket of two workers is gone' is_gone "$work/s"

start 'one worker' serve --workers 1 "$at" --connections 4 "$sheet"
one=$server
# whoever comes next is served behind a peer that has not read its reply
expect_caller 'a peer that closes without reading' "$at" "B $(total 3)" -- "A>$(add 1)" A! "B>$(add 2)" 'B<1'
expect_caller 'calls of every kind' "$at" \
    'A {"error":"org.example.count.Negative","parameters":{"amount":-1}}~' 'A {"parameters":{}}~' \
    'A {"continues":true,"parameters":{"done":false,"entry":{"amount":3,"name":"a"}}}~' 'A {"parameters":{"done":true}}~' \
    'A {"error":"org.varlink.service.ExpectedMore","parameters":{}}~' \
    'A {"error":"org.varlink.service.MethodNotImplemented","parameters":{"method":"org.example.count.Ping"}}~' \
    'A {"error":"org.varlink.service.MethodNotFound","parameters":{"method":"org.example.count.Sub"}}~' \
    'A {"error":"org.varlink.service.InterfaceNotFound","parameters":{"interface":"org.example.other"}}~' \
    'A {"error":"org.varlink.service.InvalidParameter","parameters":{"parameter":"amount"}}~' \
    "A $(total 8)" 'A  and the end' -- \
    "A>$(add -1)" 'A<1' 'A>{"method":"org.example.count.Note","parameters":{"entry":{"name":"a","amount":3},"tag":"t"}}~' 'A<1' \
    'A>{"method":"org.example.count.List","more":true}~' 'A<2' 'A>{"method":"org.example.count.List"}~' 'A<1' \
    'A>{"method":"org.example.count.Ping"}~' 'A<1' 'A>{"method":"org.example.count.Sub"}~' 'A<1' \
    'A>{"method":"org.example.other.Sub"}~' 'A<1' 'A>{"method":"org.example.count.Add"}~' 'A<1' \
    'A>{"method":"org.example.count.Add","oneway":true,"parameters":{"amount":5}}~' "A>$(add 0)" 'A<1' A.
expect_caller 'raw bytes after an upgrade' "$at" 'A {"parameters":{}}~' 'A abc and the end' -- \
    'A>{"method":"org.example.count.Echo","upgrade":true}~abc' 'A<1' A.
# Add twice; a refused Add, Note, List, a oneway Add, Add; Echo. What is refused before a rule runs is no entry.
echo 'entries 8' >"$work/entries"
finish 'one worker' "$one" 0 "$work/entries" -
holds 'the socket of one worker is gone' is_gone "$work/s"

# ---- many at the same time

cat >"$work/race.py" <<'RACE'
"""Adds 1 so many times on each of so many links at the same time. The totals must be those of one history, each link's in order.

Usage: race.py PATH LINKS CALLS
"""
import json
import socket
import sys
import threading

CALL = b'{"method":"org.example.count.Add","parameters":{"amount":1}}\0'
path, links, calls = sys.argv[1], int(sys.argv[2]), int(sys.argv[3])
found = [[] for _ in range(links)]
gate = threading.Barrier(links)


def ask(totals):
    link = socket.socket(socket.AF_UNIX)
    link.settimeout(50)
    link.connect(path)
    gate.wait(50)
    link.sendall(CALL * calls)
    held = b""
    while held.count(b"\0") < calls:
        piece = link.recv(65536)
        if not piece:
            break
        held += piece
    totals.extend(json.loads(text)["parameters"]["total"] for text in held.split(b"\0")[:-1])
    link.close()


threads = [threading.Thread(target=ask, args=(totals,)) for totals in found]
for thread in threads:
    thread.start()
for thread in threads:
    thread.join()
whole = sorted(total for totals in found for total in totals) == list(range(1, links * calls + 1))
print("one history" if whole else "no history", "in order" if all(totals == sorted(totals) for totals in found) else "out of order")
RACE

# Two links wait for each worker. A history that is not kept gives the same replies, and is counted the same.
echo 'one history in order' >"$work/history"
echo 'entries 800' >"$work/entries"
for forget in '' --forget; do
    # shellcheck disable=SC2086
    start "many$forget" serve "$at" "$sheet" --workers 4 --connections 2 $forget
    many=$server
    timeout 60 python3 "$work/race.py" "$work/s" 8 100 >"$work/out" 2>"$work/err"
    compare "many at the same time $forget" 0 "$work/history" - $?
    finish "many$forget" "$many" 0 "$work/entries" -
done

# ---- the limit of a history

cat >"$work/fill.py" <<'FILL'
"""Calls Note so many times with a tag of 4,000,000 bytes, and prints how many calls were answered, and whether the link ended.

Usage: fill.py PATH CALLS
"""
import socket
import sys

CALL = b'{"method":"org.example.count.Note","parameters":{"entry":{"name":"a","amount":1},"tag":"%s"}}\0' % (b"t" * 4_000_000)
link = socket.socket(socket.AF_UNIX)
link.settimeout(50)
link.connect(sys.argv[1])
answered, piece = 0, b"\0"
while answered < int(sys.argv[2]) and piece:
    link.sendall(CALL)
    piece = link.recv(65536)
    answered += piece == b'{"parameters":{}}\0'
print(answered, "answered" if piece else "answered and the end")
FILL

# Each of these calls weighs 4,000,385: the 68th is past 268,435,456. It ends its connection, and what is lighter still finds room.
start 'a history that is kept' serve "$at" "$sheet" --workers 1 --connections 3
kept=$server
for wanted in 67 0; do
    echo "$wanted answered and the end" >"$work/answered"
    timeout 60 python3 "$work/fill.py" "$work/s" 80 >"$work/out" 2>"$work/err"
    compare "a history that is full, $wanted" 0 "$work/answered" - $?
done
expect_caller 'a light call behind heavy ones' "$at" "A $(total 5)" 'A  and the end' -- "A>$(add 5)" 'A<1' A.
echo 'entries 68' >"$work/entries"
finish 'a history that is kept' "$kept" 0 "$work/entries" -

start 'a history that is not kept' serve "$at" "$sheet" --workers 1 --connections 1 --forget
forgetting=$server
echo '80 answered' >"$work/answered"
timeout 60 python3 "$work/fill.py" "$work/s" 80 >"$work/out" 2>"$work/err"
compare 'a history that is never full' 0 "$work/answered" - $?
echo 'entries 80' >"$work/entries"
finish 'a history that is not kept' "$forgetting" 0 "$work/entries" -

# ---- what stands at the path

echo 'entries 1' >"$work/entries"
start_bare 'a killed one' serve "$at" "$sheet"
expect 'a socket that is served' 5 - 'cannot bind' serve "$at" "$sheet" --workers 1 </dev/null
expect_caller 'a socket that another one wanted' "$at" "A $(total 5)" 'A  and the end' -- "A>$(add 5)" 'A<1' A.
kill_hard
holds 'a killed server leaves its socket' test -S "$work/s"
start 'behind a killed one' serve "$at" "$sheet" --workers 1 --connections 1
behind=$server
expect_caller 'a socket that was left behind' "$at" "A $(total 2)" 'A  and the end' -- "A>$(add 2)" 'A<1' A.
finish 'behind a killed one' "$behind" 0 "$work/entries" -
holds 'the socket that was taken over is gone' is_gone "$work/s"

echo kept >"$work/kept"
cp "$work/kept" "$work/file"
expect 'a regular file at the path' 5 - 'cannot bind' serve "unix:$work/file" "$sheet" --workers 1 </dev/null
holds 'the regular file is left alone' cmp -s "$work/kept" "$work/file"
ln -s nowhere "$work/link"
expect 'a symbolic link at the path' 5 - 'cannot bind' serve "unix:$work/link" "$sheet" --workers 1 </dev/null
holds 'the symbolic link is left alone' test -L "$work/link"
expect 'a folder at the path' 5 - 'cannot bind' serve "unix:$work" "$sheet" --workers 1 </dev/null
expect 'a path in no folder' 5 - 'cannot bind' serve "unix:$work/none/s" "$sheet" --workers 1 </dev/null
expect 'a path that is too long for a socket' 5 - 'cannot bind' serve "unix:$work/$(printf '%0120d' 0)" "$sheet" --workers 1 </dev/null

# a file that came into the socket's place while it was served
start 'a moved socket' serve "$at" "$sheet" --workers 1 --connections 1
moved=$server
mv "$work/s" "$work/elsewhere"
cp "$work/kept" "$work/s"
expect_caller 'a socket that was moved' "unix:$work/elsewhere" "A $(total 2)" 'A  and the end' -- "A>$(add 2)" 'A<1' A.
finish 'a moved socket' "$moved" 0 "$work/entries" -
holds 'the file in its place is left alone' cmp -s "$work/kept" "$work/s"
rm -f "$work/s" "$work/elsewhere"

# ---- an output that is full

timeout 60 "$program" serve "$at" "$sheet" --workers 1 --connections 1 >/dev/full 2>"$work/full.err" </dev/null &
full=$!
servers+=("$full")
: >"$work/full.out"
await "$at"
expect_caller 'a call where the output is full' "$at" "A $(total 2)" 'A  and the end' -- "A>$(add 2)" 'A<1' A.
finish full "$full" 6 - 'write fault'
holds 'the socket is gone where the output is full' is_gone "$work/s"

# ---- the network

port=$(python3 -c 'import socket; s = socket.socket(); s.bind(("127.0.0.1", 0)); print(s.getsockname()[1])')
net=tcp:127.0.0.1:$port
start 'two workers of a port' serve "$net" "$sheet" --workers 2 --connections 2
ported=$server
expect 'a port that is served' 5 - 'cannot bind' serve "$net" "$sheet" --workers 1 </dev/null
expect_four 'two workers of a port' "$net"
echo 'entries 5' >"$work/entries"
finish 'two workers of a port' "$ported" 0 "$work/entries" -
echo 'entries 1' >"$work/entries"
# a server that is killed while a peer is connected: its port is free at once
start_bare 'a killed one of a port' serve "$net" "$sheet"
timeout 60 python3 "$work/caller.py" "$net" "A>$(add 5)" 'A<1' 'A$' >"$work/held" 2>"$work/held.err" &
held=$!
for _ in $(seq 200); do
    [ -s "$work/held" ] && break
    sleep 0.05
done
kill_hard
wait "$held"
got=$?
printf '%s\n' "A $(total 5)" 'A  and the end' >"$work/wanted"
cp "$work/held" "$work/out"
cp "$work/held.err" "$work/err"
compare 'a peer of a killed server' 0 "$work/wanted" - "$got"
start 'behind a killed one of a port' serve "$net" "$sheet" --workers 1 --connections 1
ported=$server
expect_caller 'a port that was left behind' "$net" "A $(total 2)" 'A  and the end' -- "A>$(add 2)" 'A<1' A.
finish 'behind a killed one of a port' "$ported" 0 "$work/entries" -

# ---- a resolver

where=unix:$work/r
printf '{"org.example.count":"%s","org.example.locks":"unix:/run/locks"}' "$at" >"$work/registry.json"
start 'a resolver' resolver "$where" "$work/registry.json" --workers 1 --connections 5
resolver=$server
start 'a resolved service' serve "$at" "$sheet" --workers 1 --connections 3
resolved=$server
echo "$at" >"$work/replies"
expect 'an address' 0 "$work/replies" - resolve --resolver "$where" org.example.count </dev/null
expect 'an interface that nobody has' 9 - 'no address of org.example.none' resolve --resolver "$where" org.example.none </dev/null
expect_caller 'a resolver that is asked by a peer' "$where" 'A {"parameters":{"address":"unix:/run/locks"}}~' \
    'A {"error":"org.varlink.resolver.InterfaceNotFound","parameters":{"interface":"a.b"}}~' 'A  and the end' -- \
    'A>{"method":"org.varlink.resolver.Resolve","parameters":{"interface":"org.example.locks"}}~' 'A<1' \
    'A>{"method":"org.varlink.resolver.Resolve","parameters":{"interface":"a.b"}}~' 'A<1' A.
echo '{"parameters":{"total":5}}' >"$work/replies"
expect 'a call where the resolver says' 0 "$work/replies" - call --resolver "$where" org.example.count.Add '{"amount":5}' </dev/null
echo '{"parameters":{"total":7}}' >"$work/replies"
expect 'a call at the address' 0 "$work/replies" - call --at "$at" org.example.count.Add '{"amount":2}' </dev/null
echo '{"error":"org.example.count.Negative","parameters":{"amount":-1}}' >"$work/replies"
expect 'a typed call where the resolver says' 4 "$work/replies" 'error org.example.count.Negative' \
    call --typed --resolver "$where" org.example.count.Add '{"amount":-1}' </dev/null
echo 'entries 3' >"$work/entries"
finish 'a resolved service' "$resolved" 0 "$work/entries" -
finish 'a resolver' "$resolver" 0 - -
holds 'the socket of the resolver is gone' is_gone "$work/r"
expect 'a resolver that has ended' 5 - 'link fault' resolve --resolver "$where" org.example.count </dev/null

echo "serving: $passed passed, $failed failed"
[ "$failed" = 0 ]
