#!/bin/sh
# Builds OUT/oracle, which tells what the Rust crate nanoserde does with an input. It wants rustc alone.
#
#     sh tools/oracle/build.sh SOURCES OUT
#
# SOURCES is the folder of the crate, or the folder of its sources, as ../upstream.sh finds them. They
# are copied to OUT, where hashed maps and sets become those of ordered.rs.
#
# OUT/oracle reads rows `FORMAT<TAB>TYPE<TAB>INPUT` as crates/conformance_run/README.md has them, and
# answers each in a line: `answered<TAB>NORMAL FORM`, `rejected<TAB>TEXT`, `stopped` for a panic, an abort
# or more than 100 ms of processor time, or `unknown` for a type that it does not know.
set -eu
[ $# -eq 2 ] || { echo "usage: sh build.sh SOURCES OUT" >&2; exit 2; }
here=$(cd "$(dirname "$0")" && pwd)
. "$here/../upstream.sh"
mkdir -p "$2"
out=$(cd "$2" && pwd)

# replaced FILE LINE BY: the one line of the file becomes another
replaced() {
    [ "$(grep -cxF "$2" "$1")" = 1 ] || { echo "build.sh: $1 has not one line: $2" >&2; exit 2; }
    awk -v old="$2" -v new="$3" '{ print $0 == old ? new : $0 }' "$1" > "$1.new"
    mv "$1.new" "$1"
}

sources=$(cd "$1" && pwd)
for name in serde_bin serde_json serde_ron toml; do
    path=$(source_of "$sources" "$name")
    cp "$path" "$out/$name.rs"
    chmod u+w "$out/$name.rs"
done
for name in serde_bin serde_json serde_ron; do
    replaced "$out/$name.rs" "use std::collections::{HashMap, HashSet};" \
        "use crate::ordered::{HashMap, HashSet};"
    replaced "$out/$name.rs" "use core::hash::Hash;" "use crate::ordered::Key as Hash;"
done
for name in serde_bin serde_json serde_ron toml; do
    echo "#[path = \"$out/$name.rs\"] mod $name;"
done > "$out/sources.rs"
ORACLE_SOURCES=$out/sources.rs rustc --edition 2021 -C opt-level=1 -C codegen-units=1 --cap-lints allow \
    -o "$out/oracle" "$here/main.rs"
echo "built $out/oracle"
