#!/bin/sh
# Times the graph of a trace of 16,384, 32,768 and 65,536 steps in one chain, each step before its parent: `convert`
# reads the trace, builds its graph, and refuses it, since more than 10,000 steps are not built yet.
# Prints, for each, the steps, the seconds and the peak memory in kilobytes. No part of the gate. Needs GNU time.
set -eu
top=$(CDPATH='' cd -- "$(dirname -- "$0")/.." && pwd -P)
folder=$(mktemp -d)
trap 'rm -rf -- "$folder"' EXIT

# chain STEPS: the root first and the one leaf last.
chain() {
    awk -v steps="$1" 'BEGIN {
        print "cnf(s1,plain,$false,s2)."
        for (i = 2; i < steps; i++) printf "cnf(s%d,plain,p,s%d).\n", i, i + 1
        printf "cnf(s%d,axiom,p,file(chain,start)).\n", steps
    }'
}

"$top/ekskon" >/dev/null 2>&1 || true # builds it where it is missing
echo "cnf(start,axiom,p)." >"$folder/chain.p"
echo "steps seconds kilobytes"
for steps in 16384 32768 65536; do
    chain "$steps" >"$folder/chain.s"
    /usr/bin/time -o "$folder/cost" -f '%e %M' "$top/ekskon" convert "$folder/chain.p" "$folder/chain.s" 2>"$folder/line" || true
    grep -q '^not built: trace$' "$folder/line" || { cat "$folder/line"; exit 1; }
    echo "$steps $(grep -v '^Command' "$folder/cost")"
done
