#!/bin/sh
# Times least justifications of one resolution step: clauses of 2, 4, 8, 16 and 32 literals with as many variables.
# The positive parent is q(X0) | r(X0,X1) | r(X1,X2) | .., the negative one ~q(f(X0)), the target r(f(X0),X1) | r(X1,X2) | ..
# Proves and builds a small program in a copy of the repository, which takes some minutes; no part of the gate.
# Prints, for each, the literals and the microseconds of one justification.
set -eu
top=$(CDPATH='' cd -- "$(dirname -- "$0")/.." && pwd -P)
copy=$(mktemp -d)
trap 'rm -rf -- "$copy"' EXIT

(cd -- "$top" && tar cf - --exclude out crates crates.txt HANDLES) | tar xf - -C "$copy"
mkdir -p "$copy/crates/time_justify/src"
echo "time_justify: dk_syntax normal_form step_clause anyhow" >>"$copy/crates.txt"
cat >"$copy/crates/time_justify/src/main.rt" <<'RATTLE'
//! Finds one justification as often as the second word says, for clauses of as many literals as the first one says.
#![tactic(auto)]

use dk_syntax::{Clause, Kind, Literal, Name, NoMemory, Seq, SymKey, Term};
use normal_form::{ClauseList, ClauseRow};
use std::alloc::Global;
use std::env;
use step_clause::{are_numbered, is_numbered, justify};

fn literal(alloc: Global, positive: bool, name: &str, args: Vec<Term>) -> Result<Literal, NoMemory> {
    let name = Name::new(Vec::from_slice(alloc, name.as_bytes())?);
    let pred = SymKey {
        name,
        arity: 2,
        kind: Kind::Predicate,
    };
    let args = Seq::from_vec(args);
    Ok(Literal {
        positive,
        pred,
        args,
    })
}

fn applied(alloc: Global, number: u32) -> Result<Term, NoMemory> {
    let name = Name::new(Vec::from_slice(alloc, b"f")?);
    let symbol = SymKey {
        name,
        arity: 1,
        kind: Kind::Function,
    };
    let args = Seq::from_vec(vec![in alloc; Term::Var(number)]?);
    Ok(Term::App(symbol, args))
}

// r(X0,X1), or r(f(X0),X1), and so on to the last of so many
fn chain(alloc: Global, lits: &mut Vec<Literal>, many: u32, from_f: bool) -> Result<(), NoMemory> {
    for number in 1..many {
        let before = number - 1;
        let first = if from_f && before == 0 {
            applied(alloc, before)?
        } else {
            Term::Var(before)
        };
        let args = vec![in alloc; first, Term::Var(number)]?;
        lits.push(literal(alloc, true, "r", args)?)?;
    }
    Ok(())
}

fn list(alloc: Global, vars: u32, lits: Vec<Literal>) -> Result<ClauseList, NoMemory> {
    let clause = Clause {
        vars,
        lits: Seq::from_vec(lits),
    };
    let row = ClauseRow {
        clause,
        quants: Seq::from_vec(Vec::new(alloc)),
        picks: Seq::from_vec(Vec::new(alloc)),
    };
    let rows = Seq::from_vec(vec![in alloc; row]?);
    Ok(ClauseList { rows })
}

fn parents(alloc: Global, many: u32) -> Result<Seq<ClauseList>, NoMemory> {
    let head = vec![in alloc; Term::Var(0)]?;
    let mut lits = vec![in alloc; literal(alloc, true, "q", head)?]?;
    chain(alloc, &mut lits, many, false)?;
    let positive = list(alloc, many, lits)?;
    let head = vec![in alloc; applied(alloc, 0)?]?;
    let lits = vec![in alloc; literal(alloc, false, "q", head)?]?;
    let negative = list(alloc, many, lits)?;
    Ok(Seq::from_vec(vec![in alloc; positive, negative]?))
}

// whether there is a justification, where all variables are below their bounds
fn is_justified(alloc: Global, target: &Clause, parents: &Seq<ClauseList>) -> Result<bool, NoMemory> {
    if is_numbered(target) {
        if are_numbered(parents) {
            let found = justify(alloc, target, parents)?;
            return Ok(found.is_some());
        }
    }
    Ok(false)
}

fn found(alloc: Global, many: u32, times: u32) -> Result<u32, NoMemory> {
    let parents = parents(alloc, many)?;
    let mut lits = Vec::new(alloc);
    chain(alloc, &mut lits, many, true)?;
    let target = Clause {
        vars: many,
        lits: Seq::from_vec(lits),
    };
    let mut count: u32 = 0;
    for _time in 0..times {
        if is_justified(alloc, &target, &parents)? {
            count = count.saturating_add(1);
        }
    }
    Ok(count)
}

fn main(rt: HostRuntime) -> Result<(), anyhow::Error> {
    let alloc = rt.alloc();
    let words: Vec<String> = env::args(&rt)?.collect(alloc)?;
    let many: u32 = words.get(1).map(|word| word.as_str().parse().unwrap_or(2)).unwrap_or(2);
    let times: u32 = words.get(2).map(|word| word.as_str().parse().unwrap_or(1)).unwrap_or(1);
    let count = found(alloc, many, times).unwrap_or(0);
    println!(&rt; "{count}")?;
    Ok(())
}
RATTLE
mkdir -p "$copy/crates/time_justify/proofs/is_justified"
cat >"$copy/crates/time_justify/proofs/is_justified/Answers.antt" <<'ANTT'
use Rattle.time_justify.proofs.is_justified.Goals as goal

pub justify-requires-clause-target : goal.justify-requires-clause-target
justify-requires-clause-target c = c.is_numbered.ensures.0 c.if-is_numbered.true

pub justify-requires-clause-parents : goal.justify-requires-clause-parents
justify-requires-clause-parents c = c.are_numbered.ensures.0 c.if-are_numbered.true
ANTT
(cd -- "$copy/crates/time_justify" && rt run) >"$copy/log" 2>&1 || { tail -n 40 "$copy/log"; exit 1; }
program=$copy/crates/time_justify/out/time_justify
echo "literals microseconds"
for literals in 2 4 8 16 32; do
    times=$((2000 / literals))
    begun=$(date +%s%N)
    count=$("$program" "$literals" "$times")
    ended=$(date +%s%N)
    [ "$count" -eq "$times" ] || { echo "no justification"; exit 1; }
    echo "$literals $(((ended - begun) / 1000 / times))"
done
