#!/bin/bash
# Compares the Verilog that the program writes for all examples with what other tools make of it: Icarus Verilog and Verilator
# have to print the same result in the same cycle, for programs made at random too (scripts/verilator.py), Yosys has to
# synthesise it, and ABC has to find its bit-level circuit equal to what Yosys makes of it (scripts/bits.py). The same goes for
# what `build --opt` writes. The cells of those that were also written by hand are printed (scripts/cells.py). ABC also has to
# find the products right that Yosys is told to make for this comparison. One session has to draw the picture of
# examples/mandelbrot (scripts/picture.py). Traces have to be those of Icarus Verilog, for both files, and vcd2fst has to read
# them; the pictures of waveforms have to be drawn from them. The circuits of examples/by_hand have to give the same results,
# and so have the tuned sources there (scripts/by_hand.py). A refusal has to come on standard error. The arguments of the
# gallery are those of scripts/examples.py, which also looks at its pages and cases. The whole designs there have benches of
# their own (make test). What safl-time prints has to be what the runs show (scripts/timing.py, scripts/same_time.py). The tools
# have tests of their own (scripts/tools_*.py), of what they do and of their edges. The last line says how much was compared,
# and what is missing. The program is built if it is missing (SAFL names another one).
set -u
cd "$(dirname "$0")/.." || exit 1
program=$(realpath -m "${SAFL:-crates/safl/out/safl}")
if [ ! -x "$program" ]; then
    echo "outside: builds $program"
    (cd crates/safl && rt run -- check ../../examples/seven.safl) >/dev/null || { echo "outside: the program can't be built"; exit 1; }
fi
folder=$(mktemp -d)
mkdir "$folder/bits"
trap 'rm -rf "$folder"' EXIT
failed=0
tried=0
rows=0
sources=0
last=""
tuned=""
seen=""
by_hand=()

say() {
    echo "outside: $1"
    failed=$((failed + 1))
}

has() {
    command -v "$1" >/dev/null
}

# Whether the program has a command: it ends with another status than that of the usage line.
knows() {
    "$program" "$@" >"$folder/log" 2>&1
    [ $? -ne 2 ]
}

# What Icarus Verilog prints for a file with this limit of cycles and these arguments.
simulate() {
    local file=$1 limit=$2
    shift 2
    tools/safl-bench "$file" "${dump[@]}" --cycles "$limit" "$@" >"$folder/bench.v" &&
        iverilog -o "$folder/simulated" "$folder/bench.v" "$file" &&
        vvp -n "$folder/simulated" | grep -v -e 'finish called' -e 'VCD info'
}

# Builds a source, and has Verilator read the files. They are kept for the comparison of bit-level circuits.
build() {
    local source=$1 option
    seen="$seen $source "
    sources=$((sources + 1))
    for option in "${options[@]}"; do
        # shellcheck disable=SC2086
        "$program" build "$source" "$folder/built$option.v" $option || { say "build $option of $source failed"; return 1; }
        cp "$folder/built$option.v" "$folder/bits/$(basename "$source" .safl)$option.v"
        if has verilator; then
            verilator --lint-only -Wno-fatal --top-module safl "$folder/built$option.v" >"$folder/log" 2>&1 ||
                say "verilator refuses $source $option"
        fi
    done
}

# Compares the bit-level circuits of all built files, as many at once as there are processors.
compare_bits() {
    local file
    # shellcheck disable=SC2016
    find "$folder/bits" -name '*.v' -print0 |
        xargs -0 -P "$(nproc)" -I{} sh -c 'python3 scripts/bits.py "$0" {} >{}.log 2>&1 || touch {}.differs' "$program"
    for file in "$folder"/bits/*.differs; do
        [ ! -e "$file" ] || say "bit-level circuit of $(basename "$file" .v.differs): $(tail -n 3 "${file%.differs}.log")"
    done
}

# Compares what is wanted with what a simulator says, of what these words name: same WHAT WANTED GOT SIMULATOR
same() {
    tried=$((tried + 1))
    [ "$2" = "$3" ] || say "$1: $2, but $4 says $3"
}

# Writes the program's trace of a run, and has vcd2fst read it.
trace() {
    "$program" sim "$1" --cycles "$2" --vcd "$folder/trace.vcd" "${@:3}" >"$folder/log" || say "sim --vcd of $* failed"
    if has vcd2fst; then
        vcd2fst "$folder/trace.vcd" "$folder/trace.fst" >"$folder/log" 2>&1 || say "vcd2fst refuses the trace of $*"
        [ ! -s "$folder/log" ] || say "vcd2fst complains of the trace of $*: $(head -n 1 "$folder/log")"
    fi
}

# Compares the program's trace with that of the last simulation by Icarus Verilog, which these words name.
same_trace() {
    traces=$((traces + 1))
    python3 scripts/same_traces.py "$folder/trace.vcd" "$folder/icarus.vcd" >"$folder/log" 2>&1 || say "$*: $(tail -n 1 "$folder/log")"
}

# Whether a refusal is told on standard error alone, with its status.
refuse() {
    local told status
    printf 'fun main(x:8):8 = 1 + main(x)\n' >"$folder/wrong.safl"
    told=$(cd "$folder" && "$program" check wrong.safl 2>&1 >printed)
    status=$?
    [ "$status $told" = "1 wrong.safl:1:23: E10 own call outside tail position" ] || say "check of a wrong source ends with $status: $told"
    [ ! -s "$folder/printed" ] || say "check of a wrong source prints $(cat "$folder/printed")"
}

# Compares the result of a tuned source with the plain one's, for a limit of cycles and arguments: tune SOURCE RESULT LIMIT ARGS
tune() {
    local source=$1 wanted=$2 limit=$3
    shift 3
    if [ "$source" != "$tuned" ]; then
        tuned=$source
        seen="$seen $source "
        "$program" build "$source" "$folder/tuned.v" || { say "build of $source failed"; return; }
    fi
    same "$source $*" "$wanted" "$("$program" sim "$source" --cycles "$limit" "$@" | head -n 1)" "sim"
    same "$source $*" "$wanted" "$("$program" run "$folder/tuned.v" --cycles "$limit" "$@" | head -n 1)" "run"
    if has iverilog && has python3; then
        same "$source $*" "$wanted" "$(simulate "$folder/tuned.v" "$limit" "$@" | head -n 1)" "Icarus Verilog"
    fi
}

# Compares the files of a source, which are built if the last call was for another one, with a limit of cycles and arguments.
compare() {
    local source=$1 limit=$2 wanted option hand name other
    shift 2
    rows=$((rows + 1))
    if [ "$source" != "$last" ]; then
        last=$source
        build "$source" || return
    fi
    wanted=$("$program" sim "$source" --cycles "$limit" "$@") || say "sim of $source $* failed"
    for option in "${options[@]}"; do
        same "$source $option $*" "$wanted" "$("$program" run "$folder/built$option.v" --cycles "$limit" "$@")" "the built file"
    done
    [ ${#dump[@]} -eq 0 ] || trace "$source" "$limit" "$@"
    name=$(basename "$source" .safl)
    for other in "examples/by_hand/${name}_tuned.safl" "examples/faster/${name}_faster.safl"; do
        [ ! -f "$other" ] || tune "$other" "${wanted%%$'\n'*}" "$limit" "$@"
    done
    has iverilog && has python3 || return
    hand=examples/by_hand/$name.v
    if [ -f "$hand" ]; then
        same "$hand $*" "${wanted%%$'\n'*}" "$(simulate "$hand" "$limit" "$@" | head -1)" "Icarus Verilog"
    fi
    for option in "${options[@]}"; do
        same "$source $option $*" "$wanted" "$(simulate "$folder/built$option.v" "$limit" "$@")" "Icarus Verilog"
        [ ${#dump[@]} -eq 0 ] || same_trace "$source $option $*"
    done
}

# Runs the test benches of a whole design, if the tools are there: design NAME TOOL..
design() {
    local name=$1 tool
    shift
    for tool in make python3 "$@"; do
        has "$tool" || return
    done
    tried=$((tried + 1))
    SAFL=$program make -s -C "examples/$name" test >"$folder/log" 2>&1 || say "the design in examples/$name: $(tail -n 1 "$folder/log")"
    make -s -C "examples/$name" clean >/dev/null
}

skipped=""
options=("")
dump=()
traces=0
if knows build examples/seven.safl "$folder/built.v" --opt; then
    options=("" --opt)
else
    skipped=", the program has no build --opt"
fi
if knows sim examples/seven.safl --cycles 10 --vcd "$folder/trace.vcd"; then
    dump=(--dump "$folder/icarus.vcd")
else
    skipped="$skipped, the program has no sim --vcd"
fi
refuse
compare examples/seven.safl 1000
compare examples/multiply.safl 1000 5 3
compare examples/multiply.safl 1000 255 255
compare examples/shared.safl 1000 5
compare examples/even_odd.safl 1000 3
compare examples/even_odd.safl 1000 200
if has python3; then
    python3 scripts/examples.py --check || say "the gallery's pages, cases or pictures hold something else"
    [ ${#dump[@]} -eq 0 ] || python3 scripts/examples.py --waves "$program" --check || say "a picture of a run is another one"
    python3 scripts/examples.py --rows >"$folder/rows" || say "scripts/examples.py gives no arguments"
    while read -r name limit arguments <&3; do
        # shellcheck disable=SC2086
        compare "examples/$name/$name.safl" "$limit" $arguments
    done 3<"$folder/rows"
    python3 scripts/by_hand.py --check || say "the page of examples/by_hand has other tables"
    python3 scripts/guide.py "$program" --check || say "docs/GUIDE.md has other figures"
    python3 scripts/picture.py "$program" || say "the picture of the Mandelbrot set differs"
    for source in examples/*.safl examples/*/*.safl; do
        [[ "$seen" == *" $source "* ]] || say "$source has no arguments here"
    done
    compare_bits
    [ ${#options[@]} -eq 1 ] || python3 scripts/verilator.py "$program" || say "scripts/verilator.py finds a difference"
fi
design board iverilog
design ws2812 iverilog
design cipher_stream iverilog
design coprocessor iverilog verilator cc
if has yosys && has berkeley-abc && has python3; then
    python3 scripts/bits.py --products || say "the products of scripts/products.v are not those of Yosys"
fi
if has yosys && has python3; then
    for hand in examples/by_hand/*.v; do
        by_hand+=("$(basename "$hand" .v)")
    done
    python3 scripts/cells.py "$program" "${by_hand[@]}" || say "yosys refuses a file"
fi
if has python3; then
    SAFL=$program python3 scripts/tutorial.py || say "a command of the documents prints something else"
    for script in scripts/tools_*.py; do
        SAFL=$program python3 "$script" || say "$script finds a difference"
    done
    timer=$(realpath -m "${SAFL_TIME:-crates/safl_time/out/safl_time}")
    if [ -x "$timer" ]; then
        python3 scripts/same_time.py "$program" --time "$timer" --pairs 3 || say "a secret changes the time of a circuit"
        SAFL=$program SAFL_TIME=$timer python3 scripts/timing.py --count 100 || say "safl-time tells another time"
    else
        skipped="$skipped, SKIPPED safl-time"
    fi
fi
for name in iverilog yosys verilator vcd2fst berkeley-abc python3; do
    has "$name" || skipped="$skipped, SKIPPED $name"
done
echo "outside: $sources sources with $rows rows of arguments, $tried simulations and $traces traces compared, $failed differences$skipped"
[ "$failed" -eq 0 ]
