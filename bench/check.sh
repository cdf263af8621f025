#!/bin/sh
# Times `check` on developments of 1,000, 10,000 and 100,000 lets, each of which uses the one before twice, and of as
# many last arguments in one chain. Prints, for each, its form, the parts, the seconds and the peak memory in kilobytes.
# The stack is held to 2 MB. No part of the gate. Needs GNU time.
set -eu
top=$(CDPATH='' cd -- "$(dirname -- "$0")/.." && pwd -P)
folder=$(mktemp -d)
trap 'rm -rf -- "$folder"' EXIT

prelude() {
    cat <<'LAMBDAPI'
constant symbol I : TYPE;
constant symbol Prop : TYPE;
symbol Prf : Prop → TYPE;
constant symbol imp : Prop → Prop → Prop;
constant symbol and : Prop → Prop → Prop;
constant symbol or : Prop → Prop → Prop;
constant symbol iff : Prop → Prop → Prop;
constant symbol not : Prop → Prop;
constant symbol top : Prop;
constant symbol bot : Prop;
constant symbol all : (I → Prop) → Prop;
constant symbol ex : (I → Prop) → Prop;
constant symbol any : I;
rule Prf (imp $p $q) ↪ Prf $p → Prf $q;
rule Prf (not $p) ↪ Prf $p → Prf bot;
rule Prf (all $f) ↪ Π (v0 : I), Prf ($f v0);
rule Prf bot ↪ Π (v0 : Prop), Prf v0;
rule Prf top ↪ Π (v0 : Prop), Prf v0 → Prf v0;
rule Prf (and $p $q) ↪ Π (v0 : Prop), (Prf $p → Prf $q → Prf v0) → Prf v0;
rule Prf (or $p $q) ↪ Π (v0 : Prop), (Prf $p → Prf v0) → (Prf $q → Prf v0) → Prf v0;
rule Prf (ex $f) ↪ Π (v0 : Prop), (Π (v1 : I), Prf ($f v1) → Prf v0) → Prf v0;
rule Prf (iff $p $q) ↪ Π (v0 : Prop), ((Prf $p → Prf $q) → (Prf $q → Prf $p) → Prf v0) → Prf v0;
symbol em : Π (v0 : Prop), Prf (or v0 (not v0));
constant symbol p0_p : Prop;
LAMBDAPI
}

# body FORM PARTS: so many lets, or so many last arguments, from `v0 : Prf (imp p (imp p p))` and `v1 : Prf p`.
body() {
    awk -v form="$1" -v parts="$2" 'BEGIN {
        printf "symbol goal : Prf (imp p0_p (imp p0_p p0_p)) → Prf p0_p → Prf p0_p ≔ "
        printf "λ (v0 : Prf (imp p0_p (imp p0_p p0_p))), λ (v1 : Prf p0_p), "
        if (form == "lets") {
            for (i = 1; i <= parts; i++) printf "let v%d : Prf p0_p ≔ v0 v%d v%d in\n", i + 1, i, i
            printf "v%d", parts + 1
        } else {
            for (i = 1; i <= parts; i++) printf "v0 v1 ("
            printf "v1"
            for (i = 1; i <= parts; i++) printf ")"
        }
        print ";"
    }'
}

"$top/ekskon" >/dev/null 2>&1 || true # builds it where it is missing
ulimit -s 2048
echo "form parts seconds kilobytes"
for form in lets chain; do
    for parts in 1000 10000 100000; do
        { prelude; body "$form" "$parts"; } >"$folder/bench.lp"
        /usr/bin/time -o "$folder/cost" -f '%e %M' "$top/ekskon" check "$folder/bench.lp" >/dev/null 2>"$folder/line" || { cat "$folder/line"; exit 1; }
        echo "$form $parts $(grep -v '^Command' "$folder/cost")"
    done
done
