#!/bin/sh
# Times `convert` on chains of unit resolutions of 2,500, 5,000 and 10,000 steps: p0, ~p0|p1, ~p1|p2, ..
# Prints, for each, the steps, the seconds, the peak memory in kilobytes and the bytes written.
# No part of the gate. Needs GNU time.
set -eu
top=$(CDPATH='' cd -- "$(dirname -- "$0")/.." && pwd -P)
folder=$(mktemp -d)
trap 'rm -rf -- "$folder"' EXIT

# chain LINKS WHAT: the problem or the trace of a chain of so many links, of 2 LINKS + 3 steps.
chain() {
    awk -v links="$1" -v what="$2" 'BEGIN {
        trace = what == "trace"
        leaf("start", "p0")
        for (i = 0; i < links; i++) leaf("link" i, "~p" i "|p" (i + 1))
        leaf("end", "~p" links)
        if (!trace) exit
        for (i = 0; i < links; i++) derived("unit" (i + 1), "p" (i + 1), (i ? "unit" i : "start") ",link" i)
        derived("empty", "$false", "unit" links ",end")
    }
    function leaf(name, clause) {
        printf "cnf(%s,axiom,%s%s).\n", name, clause, trace ? ",file(chain," name ")" : ""
    }
    function derived(name, clause, parents) {
        printf "cnf(%s,plain,%s,inference(r,[status(thm)],[%s])).\n", name, clause, parents
    }'
}

"$top/ekskon" >/dev/null 2>&1 || true # builds it where it is missing
echo "steps seconds kilobytes bytes"
for steps in 2500 5000 10000; do
    links=$(((steps - 3) / 2))
    chain "$links" problem >"$folder/chain.p"
    chain "$links" trace >"$folder/chain.s"
    /usr/bin/time -o "$folder/cost" -f '%e %M' "$top/ekskon" convert "$folder/chain.p" "$folder/chain.s" >"$folder/text"
    echo "$((2 * links + 3)) $(cat "$folder/cost") $(wc -c <"$folder/text")"
done
