#!/bin/sh
# Times `convert` on nested Skolem steps, 50, 100, 200 and 500 deep: p0(c), ![X]:(p0(X)=>?[Y]:(r(X,Y)&p1(Y))), .. and the
# conjecture ?[X]:pN(X). Prints, for each, N, the seconds, the peak memory in kilobytes, and the bytes read and written.
# No part of the gate. Needs GNU time.
set -eu
top=$(CDPATH='' cd -- "$(dirname -- "$0")/.." && pwd -P)
folder=$(mktemp -d)
trap 'rm -rf -- "$folder"' EXIT

# Writes the problem and the trace of that depth.
nested() {
    awk -v depth="$1" -v problem="$folder/nested.p" -v trace="$folder/nested.s" '
    function leaf(name, text) {
        print text ")." >problem
        print text ",file(nested," name "))." >trace
    }
    function derived(text, status, parents) {
        print text ",inference(r,[status(" status ")],[" parents "]))." >trace
    }
    BEGIN {
        leaf("base", "fof(base,axiom,p0(c)")
        for (i = 0; i < depth; i++)
            leaf("next" i, sprintf("fof(next%d,axiom,![X]:(p%d(X)=>?[Y]:(r(X,Y)&p%d(Y)))", i, i, i + 1))
        leaf("goal", "fof(goal,conjecture,?[X]:p" depth "(X)")
        for (i = 0; i < depth; i++)
            derived(sprintf("fof(sk%d,plain,![X]:(~p%d(X)|(r(X,s%d(X))&p%d(s%d(X))))", i, i, i, i + 1, i), "esa", "next" i)
        derived("fof(denied,negated_conjecture,~?[X]:p" depth "(X)", "cth", "goal")
        term = "c"
        last = "base"
        for (i = 0; i < depth; i++) {
            term = "s" i "(" term ")"
            derived(sprintf("cnf(d%d,plain,p%d(%s)", i, i + 1, term), "thm", last ",sk" i)
            last = "d" i
        }
        derived("cnf(empty,plain,$false", "thm", last ",denied")
    }'
}

"$top/ekskon" >/dev/null 2>&1 || true # builds it where it is missing
echo "depth seconds kilobytes read written"
for depth in 50 100 200 500; do
    nested "$depth"
    /usr/bin/time -o "$folder/cost" -f '%e %M' "$top/ekskon" convert "$folder/nested.p" "$folder/nested.s" >"$folder/text"
    echo "$depth $(cat "$folder/cost") $(cat "$folder/nested.p" "$folder/nested.s" | wc -c) $(wc -c <"$folder/text")"
done
