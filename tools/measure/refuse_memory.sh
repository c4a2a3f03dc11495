#!/bin/sh
# Runs cases with each request for memory refused in turn, and compares what comes.
#
#     sh tools/measure/refuse_memory.sh [TABLE..]
#
# TABLE is a table of crates/conformance_run/data, worked.tsv if none is named. A case is run once as
# it is, and by refuse_malloc.c once for each request that it makes: with that one refused, and with
# it and every later one. Of a case with more than 200 requests, later ones are refused one in 31. Each
# such run must answer as with ample memory, or out of memory, marked as such; a call of states.tsv that
# takes no memory must answer as with ample memory, once the case has its memory. Anything else is
# printed as `other`, and the status is then 1; so it is where no request was refused. The last lines of a
# table are counts by format.
#
# It runs the proved program where `rt run` or `rt ci` left one, and else one that it builds by `rt try`,
# which proves nothing; PROGRAM in the environment is another one. It wants rt, cc and Python.
set -eu
here=$(cd "$(dirname "$0")" && pwd)
crate=$here/../../crates/conformance_run
folder=$(mktemp -d)
trap 'rm -rf "$folder"' EXIT

# Copies the program that `rt try` builds and then removes, while it runs the longest table.
tried() {
    mkdir "$folder/try"
    (cd "$crate" && TMPDIR=$folder/try exec rt try --seconds 600 -- tables data/rust_crate.tsv) \
        > "$folder/log" 2>&1 &
    built=$folder/conformance_run
    until [ -x "$built" ] && [ "$("$built" one '' 2> /dev/null)" = "no case" ]; do
        kill -0 $! 2> /dev/null || { cat "$folder/log" >&2; exit 2; }
        sleep 1
        find "$folder/try" -name program -type f -exec cp {} "$built" ';' 2> /dev/null || true
    done
    kill $!
    wait $! || true
}

if [ -z "${PROGRAM:-}" ]; then
    PROGRAM=$crate/out/conformance_run
    [ -x "$PROGRAM" ] || { tried; PROGRAM=$folder/conformance_run; }
fi
cc -shared -fPIC -O2 -o "$folder/refuse_malloc.so" "$here/refuse_malloc.c"
status=0
for table in "${@:-worked.tsv}"; do
    [ -f "$table" ] || table=$crate/data/$table
    python3 "$here/refuse_memory.py" "$PROGRAM" "$folder/refuse_malloc.so" "$table" || status=1
done
exit $status
