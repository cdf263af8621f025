#!/bin/sh
# Times sorted forms of one chain of `Or`: 1,000, 10,000 and 50,000 members, nested evenly, of distinct predicates from the
# last to the first, and the same chain of equal ones. Each form is sorted, compared with its copy, and dropped, on a stack
# of 2 MB. Proves and builds a small program in a copy of the repository, which takes some minutes; no part of the gate.
# Prints, for each, the members, how many predicates they have, and the milliseconds of the whole run.
set -eu
top=$(CDPATH='' cd -- "$(dirname -- "$0")/.." && pwd -P)
copy=$(mktemp -d)
trap 'rm -rf -- "$copy"' EXIT

(cd -- "$top" && tar cf - --exclude out crates crates.txt HANDLES) | tar xf - -C "$copy"
mkdir -p "$copy/crates/time_sorted/src"
echo "time_sorted: dk_syntax normal_form anyhow" >>"$copy/crates.txt"
cat >"$copy/crates/time_sorted/src/main.rt" <<'RATTLE'
//! Sorts a chain of as many members as the first word says, of distinct predicates where the second word is 1.
#![tactic(auto)]

use dk_syntax::{Boxed, Kind, Literal, Name, NoMemory, Seq, SymKey};
use normal_form::{Nf, nf_eq, sorted_of};
use std::alloc::Global;
use std::env;

fn member(alloc: Global, number: u32) -> Result<Nf, NoMemory> {
    let name = Name::new(Vec::from_slice(alloc, &number.to_be_bytes())?);
    let pred = SymKey {
        name,
        arity: 0,
        kind: Kind::Predicate,
    };
    let args = Seq::new(alloc);
    Ok(Nf::Lit(Literal {
        positive: true,
        pred,
        args,
    }))
}

fn either(alloc: Global, a: Nf, b: Nf) -> Result<Nf, NoMemory> {
    let a = Boxed::new(alloc, a)?;
    let b = Boxed::new(alloc, b)?;
    Ok(Nf::Or(a, b))
}

// two by two
fn halved(alloc: Global, members: Vec<Nf>) -> Result<Vec<Nf>, NoMemory> {
    let mut pairs = Vec::new(alloc);
    let mut before = None;
    for member in members {
        match before {
            None => before = Some(member),
            Some(first) => {
                pairs.push(either(alloc, first, member)?)?;
                before = None;
            }
        }
    }
    if let Some(last) = before {
        pairs.push(last)?;
    }
    Ok(pairs)
}

fn chain(alloc: Global, many: u32, distinct: bool) -> Result<Vec<Nf>, NoMemory> {
    let mut members = Vec::new(alloc);
    for number in 0..many {
        let name = if distinct { many - number } else { 0 };
        members.push(member(alloc, name)?)?;
    }
    for _level in 0..32 {
        members = halved(alloc, members)?;
    }
    Ok(members)
}

fn is_sorted_again(alloc: Global, many: u32, distinct: bool) -> Result<bool, NoMemory> {
    let forms = chain(alloc, many, distinct)?;
    for form in forms.as_slice() {
        let sorted = sorted_of(alloc, form)?;
        let copy = sorted.form.copy(alloc)?;
        if !nf_eq(&copy, &sorted.form) {
            return Ok(false);
        }
    }
    Ok(true)
}

fn main(rt: HostRuntime) -> Result<(), anyhow::Error> {
    let alloc = rt.alloc();
    let words: Vec<String> = env::args(&rt)?.collect(alloc)?;
    let many: u32 = words.get(1).map(|word| word.as_str().parse().unwrap_or(2)).unwrap_or(2);
    let distinct: u32 = words.get(2).map(|word| word.as_str().parse().unwrap_or(1)).unwrap_or(1);
    let same = is_sorted_again(alloc, many, distinct == 1).unwrap_or(false);
    println!(&rt; "{same}")?;
    Ok(())
}
RATTLE
(cd -- "$copy/crates/time_sorted" && rt run) >"$copy/log" 2>&1 || { tail -n 40 "$copy/log"; exit 1; }
program=$copy/crates/time_sorted/out/time_sorted
ulimit -s 2048
echo "members distinct milliseconds"
for members in 1000 10000 50000; do
    for distinct in 1 0; do
        begun=$(date +%s%N)
        same=$("$program" "$members" "$distinct")
        ended=$(date +%s%N)
        [ "$same" = true ] || { echo "the copy is not the form"; exit 1; }
        echo "$members $distinct $(((ended - begun) / 1000000))"
    done
done
