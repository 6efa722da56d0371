#!/bin/bash
# Whether the gate runs all case files: the words of safl_cases name each file of its data/.
set -u
[ $# -eq 0 ] || { echo "usage: cases.sh (it takes no words, and says whether the gate runs all case files)" >&2; exit 2; }
cd "$(dirname "$0")/../crates/safl_cases" || exit 1
there=$(cd data && ls)
[ "$(sort args)" = "$(sort <<<"$there")" ] || { echo "cases: crates/safl_cases/args names other files than are in data/"; exit 1; }
echo "cases: all $(wc -l <<<"$there") files are run"
