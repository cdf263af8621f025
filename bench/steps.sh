#!/bin/sh
# Times `steps`: on 15,000, 30,000 and 60,000 clausal steps in one chain of resolutions, of E's size; on 3,000 resolutions of
# clauses of 32 literals; and on one chain of eight parents with eight literals each.
# Given a folder of traces, also on all its files NAME.p with NAME.s together. Prints the steps, the seconds of real and of
# processor time, which differ by what workers do beside each other, and the peak memory in kilobytes. No part of the gate. Needs GNU time.
set -eu
top=$(CDPATH='' cd -- "$(dirname -- "$0")/.." && pwd -P)
folder=$(mktemp -d)
trap 'rm -rf -- "$folder"' EXIT

# resolutions STEPS: p(a,b) | q(X) turned round by ~p(X,Y) | p(Y,X), again and again.
resolutions() {
    echo 'cnf(turn,axiom,(~p(X,Y)|p(Y,X)),file(bench,turn)).'
    echo 'cnf(s0,axiom,(p(a,b)|q(X)),file(bench,start)).'
    awk -v steps="$1" 'BEGIN {
        for (i = 1; i <= steps; i++)
            printf "cnf(s%d,plain,(p(%s)|q(X1)),inference(spm,[status(thm)],[turn,s%d])).\n", i, i % 2 ? "b,a" : "a,b", i - 1
    }'
}

# long STEPS: clauses of 32 literals, each step from the same two parents.
long() {
    awk -v steps="$1" 'function chain(first, text, k) {
        text = "r(" first ",X1)"
        for (k = 2; k < 32; k++) text = text "|r(X" k - 1 ",X" k ")"
        return text
    } BEGIN {
        print "cnf(positive,axiom,(q(X0)|" chain("X0") "),file(bench,positive))."
        print "cnf(negative,axiom,~q(f(X0)),file(bench,negative))."
        for (i = 1; i <= steps; i++)
            printf "cnf(s%d,plain,(%s),inference(spm,[status(thm)],[positive,negative])).\n", i, chain("f(X0)")
    }'
}

# eight: a clause whose eight literals seven parents of eight literals each take away.
eight() {
    awk 'BEGIN {
        for (k = 1; k <= 7; k++) {
            line = "~p" k "(X)"
            for (j = 1; j <= 7; j++) line = line "|q" j "(X,Y)"
            print "cnf(c" k ",axiom,(" line "),file(bench,c" k "))."
        }
        line = "q1(X,Y)"
        for (k = 1; k <= 7; k++) line = line "|p" k "(X)"
        print "cnf(first,axiom,(" line "),file(bench,first))."
        line = "q1(X,Y)"
        for (j = 2; j <= 7; j++) line = line "|q" j "(X,Y)"
        print "cnf(last,plain,(" line "),inference(rw,[status(thm)],[first,c1,c2,c3,c4,c5,c6,c7]))."
    }'
}

# the leaves of a trace, as a problem
leaves() {
    grep ',axiom,' "$1" | sed 's/,file(bench,[a-z0-9]*))\.$/)./; s/^cnf(s0,/cnf(start,/'
}

# timed NAME STEPS
timed() {
    leaves "$folder/$1.s" >"$folder/$1.p"
    /usr/bin/time -o "$folder/cost" -f '%e %U %M' \
        "$top/ekskon" steps "$folder/$1.p" "$folder/$1.s" >"$folder/lines"
    if grep -q wrong "$folder/lines"; then
        grep -m 1 wrong "$folder/lines"
        exit 1
    fi
    echo "$1 $2 $(cat "$folder/cost")"
}

"$top/ekskon" >/dev/null 2>&1 || true # builds it where it is missing
echo "trace steps seconds processor kilobytes"
for steps in 15000 30000 60000; do
    resolutions "$steps" >"$folder/resolutions.s"
    timed resolutions "$steps"
done
long 3000 >"$folder/long.s"
timed long 3000
eight >"$folder/eight.s"
timed eight 1
if [ $# -gt 0 ]; then
    for trace in "$1"/*.s; do
        /usr/bin/time -a -o "$folder/each" -f '%e' "$top/ekskon" steps "${trace%.s}.p" "$trace" >/dev/null 2>&1 || true
    done
    awk '!/^Command/ { seconds += $1; traces++ } END { printf "folder: %d traces, %.2f seconds\n", traces, seconds }' "$folder/each"
fi
