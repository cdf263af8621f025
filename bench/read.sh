#!/bin/sh
# Times the reading of problems of 1, 4 and 16 MB: `convert` reads the problem, builds it, and refuses an empty
# trace. Prints, for each, the bytes, the items, the seconds, the MB a second and the peak memory in kilobytes.
# No part of the gate. Needs GNU time.
set -eu
top=$(CDPATH='' cd -- "$(dirname -- "$0")/.." && pwd -P)
folder=$(mktemp -d)
trap 'rm -rf -- "$folder"' EXIT

# items BYTES: so many bytes of axioms, of some 300 bytes each.
items() {
    awk -v bytes="$1" 'BEGIN {
        for (i = 0; written < bytes; i++) {
            line = sprintf("fof(item_%d, axiom, (![X1,X2]:((man(X1,f(X2))&(~likes(X2,socrates)|knows(X1,g(X1,X2)))&(older(X1,X2)|younger(X1,X2)|twin(f(X1),f(X2))|twin(f(X2),f(X1))|neighbour(X1,X2)))=>(?[X3]:(parent(X3,X1)&(mortal(f(g(X3,X2)))|~mortal(X1)))))), file(\047bench.p\047, item_%d)).", i, i)
            print line
            written += length(line) + 1
        }
    }'
}

"$top/ekskon" >/dev/null 2>&1 || true # builds it where it is missing
: >"$folder/empty.s"
echo "bytes items seconds MB/s kilobytes"
for bytes in 1000000 4000000 16000000; do
    items "$bytes" >"$folder/read.p"
    /usr/bin/time -o "$folder/cost" -f '%e %M' "$top/ekskon" convert "$folder/read.p" "$folder/empty.s" 2>"$folder/line" || true
    grep -q '^no refutation$' "$folder/line" || { cat "$folder/line"; exit 1; }
    size=$(wc -c <"$folder/read.p")
    awk -v size="$size" -v items="$(wc -l <"$folder/read.p")" '!/^Command/ { printf "%d %d %s %.1f %s\n", size, items, $1, size / 1000000 / ($1 + 0.001), $2 }' "$folder/cost"
done
