#!/bin/sh
# Makes the first program of README.md and the walk of docs/USER_TYPES.md in an empty folder, without a
# proof, and compares what is printed with tools/walk. The first step that differs ends it with status 1.
# It takes some minutes.
#
#     sh tools/walk.sh FOLDER
#
# FOLDER must not be there yet; it is made, and may be removed afterwards.
set -eu
[ $# -eq 1 ] || { echo "usage: sh tools/walk.sh FOLDER" >&2; exit 2; }
top=$(cd "$(dirname "$0")/.." && pwd)
walk=$top/tools/walk
mkdir "$1"
cd "$1"

# The folder of two programs over JSON and RON.
sh "$top/vendor" . nano_json_schema nano_ron_schema > crates.txt
echo 'first: anyhow nano_schema nano_json_schema' >> crates.txt
echo 'server: anyhow nano_schema nano_json_schema nano_ron_schema' >> crates.txt
mkdir -p crates/first/src crates/server/src

# The first program.
cd crates/first
cp "$walk/first_state.rt.txt" src/state.rt
cp "$walk/first_main.rt.txt" src/main.rt
sh "$top/derive" src/state.rt
rt try > stdout
diff "$walk/first_stdout" stdout

cd ../server
cp "$walk/settings.rt.txt" src/settings.rt
cp "$walk/main.rt.txt" src/main.rt
cp "$walk/stdin" stdin

# The impls, the program and its test.
sh "$top/derive" src/settings.rt
rt try < stdin > stdout
diff "$walk/stdout" stdout
rt try --test
[ -z "$(sh "$top/derive" --check src/settings.rt)" ]

# A file at fault is shown with its place.
cp "$walk/fault.rt.txt" src/fault.rt
if sh "$top/derive" src/fault.rt 2> printed; then echo "no fault" >&2; exit 1; fi
sed "s|^$(pwd)/||" printed | grep -v '^run=\|^checked:' | diff "$walk/fault.txt" -
echo "the walk is as it is written"
