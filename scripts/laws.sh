#!/bin/bash
# Whether docs/THEOREMS.md names each law, that is each public function of a src/laws.rt.
set -u
[ $# -eq 0 ] || { echo "usage: laws.sh (it takes no words, and says which laws docs/THEOREMS.md does not name)" >&2; exit 2; }
cd "$(dirname "$0")/.." || exit 1
missing=0
for law in $(sed -n 's/^pub fn \([a-z_]*\)().*/\1/p' crates/*/src/laws.rt | sort -u); do
    grep -qw "$law" docs/THEOREMS.md || { echo "laws: docs/THEOREMS.md does not name $law"; missing=1; }
done
[ "$missing" -eq 0 ] && echo "laws: docs/THEOREMS.md names each law"
exit "$missing"
