#!/bin/sh
# How the time of reading and showing a typed value grows when its size grows tenfold: a struct of many
# fields read from an object of as many members, a map of many keys, and an array of many picks of an enum,
# whose time grows with the enum's names too. And that of checking a definition whose types refer to each
# other in a row, in either order, up to one in which `float` stands.
# It is no part of the gate: it builds a program over copies of the crates, in a folder of its own.
# Usage: bench/values.sh [FOLDER]     (default: a temporary one, removed at the end)
set -eu
top=$(cd "$(dirname "$0")/.." && pwd)
. "$top/bench/lay-out.sh"
lay_out "${1:-}" values_bench 'link_port idl_tree typed_value' 'typed_value idl_tree link_port serde_json'
cat > src/main.rt <<'PROGRAM'
//! How the time of reading and showing a typed value grows with its size.
#![tactic(auto)]

use idl_tree::{Body, Checked, Core, Field, Interface, Member, Named, Part, Prefix, TypeRef, in_form};
use link_port::{Box, List, Memory, Text, Value};
use serde_json::{Map, Number, Value as Json};
use std::alloc::Global;
use std::io;
use std::rt::Clock;
use std::time::Instant;
use typed_value::{read, show};

// The interface without members, in whose scope the types stand.
fn scope(alloc: Global) -> Result<Checked, Memory> {
    let tree = Interface {
        notes: List::new(alloc),
        name: Text::of(alloc, "a.b")?,
        members: List::new(alloc),
        tail: List::new(alloc),
    };
    if !in_form(&tree) {
        return Err(Memory);
    }
    match Checked::of(alloc, tree) {
        Ok(scope) => Ok(scope),
        Err(_) => Err(Memory),
    }
}

fn in_place(alloc: Global, prefixes: List<Prefix>, body: Body) -> Result<TypeRef, Memory> {
    Ok(TypeRef { prefixes, core: Core::Inline(Box::new(alloc, body)?) })
}

// A struct of so many fields of `int`, in the order of their numbers, and an object of as many members.
fn wide_struct(alloc: Global, size: u64) -> Result<(TypeRef, Value), Memory> {
    let mut fields = List::new(alloc);
    for i in 0..size {
        let name = format!(in alloc; "f{i}")?;
        fields.push(Field {
            notes: List::new(alloc),
            name: Text::of(alloc, name.as_str())?,
            of: TypeRef { prefixes: List::new(alloc), core: Core::Int },
        })?;
    }
    let body = Body::Struct { fields, ending: List::new(alloc) };
    Ok((in_place(alloc, List::new(alloc), body)?, wide_object(alloc, size)?))
}

// A map of so many keys.
fn wide_map(alloc: Global, size: u64) -> Result<(TypeRef, Value), Memory> {
    let mut prefixes = List::new(alloc);
    prefixes.push(Prefix::Map)?;
    Ok((TypeRef { prefixes, core: Core::Int }, wide_object(alloc, size)?))
}

// An object of so many members.
fn wide_object(alloc: Global, size: u64) -> Result<Value, Memory> {
    let mut members = Map::new(alloc);
    for i in 0..size {
        let name = format!(in alloc; "f{i}")?;
        if members.insert(name, Json::Number(Number::from(i))).is_err() {
            return Err(Memory);
        }
    }
    Ok(Value::of(Json::Object(members)))
}

// An array of so many picks of the last name of an enum of so many names.
fn many_picks(alloc: Global, names: u64, picks: u64) -> Result<(TypeRef, Value), Memory> {
    let mut prefixes = List::new(alloc);
    prefixes.push(Prefix::Array)?;
    let mut all = List::new(alloc);
    for i in 0..names {
        let name = format!(in alloc; "n{i}")?;
        all.push(Named { notes: List::new(alloc), name: Text::of(alloc, name.as_str())? })?;
    }
    let last = names.saturating_sub(1);
    let mut items = Vec::new(alloc);
    for _ in 0..picks {
        let item = Json::String(format!(in alloc; "n{last}")?);
        if items.push(item).is_err() {
            return Err(Memory);
        }
    }
    let body = Body::Enum { names: all, ending: List::new(alloc) };
    Ok((in_place(alloc, prefixes, body)?, Value::of(Json::Array(items))))
}

// The microseconds of one reading and one showing.
fn time<R: Clock>(
    rt: &R,
    alloc: Global,
    case: Result<(TypeRef, Value), Memory>,
) -> io::Result<Option<(u128, u128)>> {
    let (Ok(scope), Ok((of, json))) = (scope(alloc), case) else {
        return Ok(None);
    };
    let start = Instant::now(rt)?;
    let Ok(value) = read(alloc, &scope, &of, &json) else {
        return Ok(None);
    };
    let reading = start.elapsed(rt)?.as_micros();
    let start = Instant::now(rt)?;
    let shown = show(alloc, &scope, &of, &value).is_ok();
    let showing = start.elapsed(rt)?.as_micros();
    Ok(if shown { Some((reading, showing)) } else { None })
}

fn print_growth<R: Clock + Print>(
    rt: &R,
    alloc: Global,
    name: &str,
    small: Result<(TypeRef, Value), Memory>,
    great: Result<(TypeRef, Value), Memory>,
) -> io::Result<()> {
    let small = time(rt, alloc, small)?;
    let great = time(rt, alloc, great)?;
    let (Some((read_small, show_small)), Some((read_great, show_great))) = (small, great) else {
        println!(rt; "{name}: nothing was read")?;
        return Ok(());
    };
    println!(rt; "{name}: read in {read_small} us, then {read_great} us")?;
    println!(rt; "{name}: shown in {show_small} us, then {show_great} us")
}

// The type Ti with one field, of the type Tj; that of the last one is `float`.
fn link(alloc: Global, i: u64, next: u64, last: u64) -> Result<Member, Memory> {
    let name = format!(in alloc; "T{i}")?;
    let next = format!(in alloc; "T{next}")?;
    let core = if i == last { Core::Float } else { Core::Name(Text::of(alloc, next.as_str())?) };
    let mut fields = List::new(alloc);
    fields.push(Field {
        notes: List::new(alloc),
        name: Text::of(alloc, "x")?,
        of: TypeRef { prefixes: List::new(alloc), core },
    })?;
    Ok(Member {
        notes: List::new(alloc),
        name: Text::of(alloc, name.as_str())?,
        part: Part::Shape(Body::Struct { fields, ending: List::new(alloc) }),
    })
}

// So many types in a row, each of which refers to the one behind it, or to the one before it.
fn row(alloc: Global, size: u64, backwards: bool) -> Result<Interface, Memory> {
    let mut members = List::new(alloc);
    for i in 0..size {
        let member = if backwards {
            link(alloc, i, i.saturating_sub(1), 0)?
        } else {
            link(alloc, i, i.saturating_add(1), size.saturating_sub(1))?
        };
        members.push(member)?;
    }
    Ok(Interface {
        notes: List::new(alloc),
        name: Text::of(alloc, "a.b")?,
        members,
        tail: List::new(alloc),
    })
}

// The microseconds of one check, and whether the first and the last type reach `float`.
fn check<R: Clock + Print>(rt: &R, alloc: Global, size: u64, backwards: bool) -> io::Result<()> {
    let Ok(tree) = row(alloc, size, backwards) else {
        return Ok(());
    };
    if !in_form(&tree) {
        return Ok(());
    }
    let start = Instant::now(rt)?;
    let Ok(checked) = Checked::of(alloc, tree) else {
        return Ok(());
    };
    let spent = start.elapsed(rt)?.as_micros();
    let mut reaching = 0u64;
    for member in checked.tree().members.as_slice() {
        if let Part::Shape(body) = &member.part {
            if checked.body_reaches_float(body) {
                reaching = reaching.saturating_add(1);
            }
        }
    }
    println!(rt; "{size} types in a row, backwards {backwards}: {spent} us, {reaching} reach float")?;
    Ok(())
}

fn main(rt: HostRuntime) -> io::Result<()> {
    let alloc = rt.alloc();
    for backwards in [false, true] {
        check(&rt, alloc, 10_000, backwards)?;
        check(&rt, alloc, 100_000, backwards)?;
    }
    let (small, great) = (wide_struct(alloc, 1_000), wide_struct(alloc, 10_000));
    print_growth(&rt, alloc, "struct of 1,000 and 10,000 fields", small, great)?;
    let (small, great) = (wide_map(alloc, 10_000), wide_map(alloc, 100_000));
    print_growth(&rt, alloc, "map of 10,000 and 100,000 keys", small, great)?;
    let (small, great) = (many_picks(alloc, 1_000, 10_000), many_picks(alloc, 1_000, 100_000));
    print_growth(&rt, alloc, "10,000 and 100,000 picks of 1,000 names", small, great)?;
    let (small, great) = (many_picks(alloc, 100, 100_000), many_picks(alloc, 1_000, 100_000));
    print_growth(&rt, alloc, "100,000 picks of 100 and 1,000 names", small, great)
}
PROGRAM
rt run > run.log 2>&1 || { cat run.log; exit 1; }
for _ in 1 2 3; do ./out/values_bench; done
