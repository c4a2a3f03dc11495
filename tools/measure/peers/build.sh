#!/bin/sh
# Builds OUT/target/release/peers: the port beside its peers in one program, with no network.
#
#     sh tools/measure/peers/build.sh SOURCES OUT LIBRARY
#
# SOURCES is the folder of the Rust crate nanoserde 0.1.37, as ../../upstream.sh finds it, and
# LIBRARY the static library that `rt lib` makes of crates/bench. The other peers are Debian 12's
# packages librust-serde-json-dev, librust-bincode-dev, librust-ron-dev, librust-toml-dev,
# librust-serde-dev and librust-serde-derive-dev. It wants cargo. simdjson and RapidJSON are the packages
# libsimdjson-dev and rapidjson-dev, and want g++; where one is missing, it says so and builds the others.
set -eu
[ $# -eq 3 ] || { echo "usage: sh build.sh SOURCES OUT LIBRARY" >&2; exit 2; }
here=$(cd "$(dirname "$0")" && pwd)
. "$here/../../upstream.sh"
registry=$(dpkg -L librust-serde-dev | sed -n 's|\(.*/cargo/registry\)/serde-[^/]*$|\1|p' | head -n 1)
[ -n "$registry" ] || { echo "build.sh: the packages of the peers are not installed" >&2; exit 2; }
mkdir -p "$2/src" "$2/.cargo"
out=$(cd "$2" && pwd)
library=$(cd "$(dirname "$3")" && pwd)/$(basename "$3")

sources=$(cd "$1" && pwd)
for name in serde_bin serde_json serde_ron toml; do
    path=$(source_of "$sources" "$name")
    cp "$path" "$out/src/nano_$name.rs"
done
cp "$here"/*.rs "$out/src/"

# anchor NAME HEADER: builds the peer in C++ where its package is installed.
anchors=
anchor() {
    if command -v g++ > /dev/null && [ -f "/usr/include/$2" ]; then
        g++ -std=c++17 -O3 -DNDEBUG -c "$here/$1.cpp" -o "$out/$1.o"
        anchors="$anchors $1"
    else
        echo "build.sh: $1 is not installed, and no peer" >&2
    fi
}
anchor simdjson simdjson.h
anchor rapidjson rapidjson/reader.h
cp "$here/Cargo.toml" "$out/"
printf '[source.crates-io]\nreplace-with = "debian"\n[source.debian]\ndirectory = "%s"\n' "$registry" \
    > "$out/.cargo/config.toml"
memory=$(dirname "$(rt doc)")/c/liblibc_c.a # the C functions of the kit's allocator
{
    echo 'fn main() {'
    for path in "$library" "$memory"; do
        printf '    println!("cargo:rerun-if-changed=%s");\n' "$path"
        printf '    println!("cargo:rustc-link-arg=%s");\n' "$path"
    done
    for name in $anchors; do
        echo "    println!(\"cargo:rustc-cfg=$name\");"
        echo "    println!(\"cargo:rerun-if-changed=$out/$name.o\");"
        echo "    println!(\"cargo:rustc-link-arg=$out/$name.o\");"
        [ "$name" != simdjson ] || echo '    println!("cargo:rustc-link-arg=-lsimdjson");'
    done
    [ -z "$anchors" ] || echo '    println!("cargo:rustc-link-arg=-lstdc++");'
    echo '}'
} > "$out/build.rs"
cd "$out"
rm -f Cargo.lock
cargo build --offline --release --quiet
