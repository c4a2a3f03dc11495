#!/bin/sh
# What the merge gate runs after `rt ci`, at the top: all that is checked and proves nothing.
#
#     sh tools/check.sh
#
# Each step is printed with its seconds; the first that fails ends it with status 1 and is named. The last
# line is `N passed, M failed`, as that of `rt ci` is. The steps are tools/check_*.py, list_calls.py and
# what_to_read.py; whether each generated file is what derive_files or write_types.py writes; 2,000 drawn
# definitions, of which check_impls.py reads what derive wrote; 20,000 drawn cases (fuzz.py), always the same;
# and worked.tsv with memory refused. It takes about a minute, and runs the programs that `rt ci` left in out/
# of conformance_run, derive_files and two examples; it wants cc and Python too.
set -u
cd "$(dirname "$0")/.." || exit 2
program=crates/conformance_run/out/conformance_run
derive=crates/derive_files/out/derive_files
passed=0
log=$(mktemp)
trap 'rm -f "$log"' EXIT

# step NAME COMMAND..: runs it; what it prints is shown where it fails
step() {
    name=$1
    shift
    start=$(date +%s)
    if "$@" > "$log" 2>&1; then
        passed=$((passed + 1))
        echo "$name: $(($(date +%s) - start)) s, $(tail -n 1 "$log" | cut -c1-200)"
    else
        tail -n 200 "$log"
        echo "FAILED: $name, after $(($(date +%s) - start)) s"
        echo "$passed passed, 1 failed"
        exit 1
    fi
}

# is_fresh FILE..: derive_files would write each file as it is
is_fresh() {
    "$derive" --check "$@" && echo "$# files"
}

for built in "$program" "$derive"; do
    [ -x "$built" ] || { echo "FAILED: $built is not there; rt ci builds it"; echo "0 passed, 1 failed"; exit 1; }
done
for script in tools/check_*.py tools/list_calls.py tools/what_to_read.py; do
    step "$(basename "$script")" python3 "$script"
done
# shellcheck disable=SC2046
step "derive --check" is_fresh $(grep -lx -e 'mod derived;' -r crates/*/src |
    grep -v -e '^crates/derive_' -e '^crates/test_derive/' | sort)
step "write_types.py --check" python3 tools/write_types.py --check
step "check_impls.py --drawn" python3 tools/check_impls.py --drawn 400 "$derive"
step "fuzz.py" python3 tools/fuzz.py "$program" --seed 1 --cases 20000
step "refuse_memory.sh" env PROGRAM="$PWD/$program" sh tools/measure/refuse_memory.sh worked.tsv
echo "$passed passed, 0 failed"
