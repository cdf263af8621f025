#!/bin/sh
# Times a table of ground terms: 1,000,000 terms that nest 500 deep and share their subterms, put in one by one, and
# then put in once more, when each is found. Proves and builds a small program in a copy of the repository, which takes
# some minutes; no part of the gate. Prints the terms, the seconds and the peak memory in kilobytes. Needs GNU time.
set -eu
top=$(CDPATH='' cd -- "$(dirname -- "$0")/.." && pwd -P)
copy=$(mktemp -d)
trap 'rm -rf -- "$copy"' EXIT

(cd -- "$top" && tar cf - --exclude out crates crates.txt HANDLES) | tar xf - -C "$copy"
mkdir -p "$copy/crates/time_terms/src"
echo "time_terms: dk_syntax anyhow" >>"$copy/crates.txt"
cat >"$copy/crates/time_terms/src/main.rt" <<'RATTLE'
//! Puts as many terms into a table as the first word says, twice.
#![tactic(auto)]

use dk_syntax::{Kind, Name, NoMemory, Seq, SymKey, TermTable};
use std::alloc::Global;
use std::env;

fn symbol(alloc: Global, number: u32, arity: u32) -> Result<SymKey, NoMemory> {
    let name = Name::new(Vec::from_slice(alloc, &number.to_be_bytes())?);
    Ok(SymKey {
        name,
        arity,
        kind: Kind::Function,
    })
}

// the number of the head applied to one term of the table, or to none
fn put(alloc: Global, table: &mut TermTable, head: &SymKey, below: Option<u32>) -> Result<u32, NoMemory> {
    let length = table.len();
    if length == u32::MAX {
        return Err(NoMemory);
    }
    match below {
        Some(number) if number < length => {
            let args = Seq::from_vec(vec![in alloc; number]?);
            table.add(alloc, head, &args)
        }
        _ => table.add(alloc, head, &Seq::new(alloc)),
    }
}

// so many terms, in chains of 500 over a constant each
fn fill(alloc: Global, table: &mut TermTable, many: u32) -> Result<(), NoMemory> {
    let head = symbol(alloc, 0, 1)?;
    let mut last = None;
    for count in 0..many {
        if count % 500 == 0 {
            let constant = symbol(alloc, count, 0)?;
            last = Some(put(alloc, table, &constant, None)?);
        } else {
            last = Some(put(alloc, table, &head, last)?);
        }
    }
    Ok(())
}

fn filled(alloc: Global, many: u32) -> Result<u32, NoMemory> {
    let mut table = TermTable::new(alloc)?;
    fill(alloc, &mut table, many)?;
    fill(alloc, &mut table, many)?;
    Ok(table.len())
}

fn main(rt: HostRuntime) -> Result<(), anyhow::Error> {
    let alloc = rt.alloc();
    let words: Vec<String> = env::args(&rt)?.collect(alloc)?;
    let many: u32 = words.get(1).map(|word| word.as_str().parse().unwrap_or(2)).unwrap_or(2);
    let count = filled(alloc, many).unwrap_or(0);
    println!(&rt; "{count}")?;
    Ok(())
}
RATTLE
(cd -- "$copy/crates/time_terms" && rt run) >"$copy/log" 2>&1 || { tail -n 40 "$copy/log"; exit 1; }
program=$copy/crates/time_terms/out/time_terms
echo "terms seconds kilobytes"
for many in 10000 100000 1000000; do
    count=$(/usr/bin/time -o "$copy/cost" -f '%e %M' "$program" "$many")
    [ "$count" -eq "$many" ] || { echo "$count terms"; exit 1; }
    echo "$many $(cat "$copy/cost")"
done
