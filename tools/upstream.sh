# Where the files of the Rust crate nanoserde 0.1.37 are, for the scripts that build over them.

# source_of SOURCES NAME: the path of the crate's file NAME.rs. SOURCES is the folder of the crate, or
# the folder of its sources; there `serde_bin.rs` is the file of that name, in `src` or not, or
# `src_serde_bin.rs`, and so are `serde_json.rs`, `serde_ron.rs` and `toml.rs`
source_of() {
    for path in "$1/src/$2.rs" "$1/$2.rs" "$1/src_$2.rs"; do
        [ ! -f "$path" ] || { echo "$path"; return; }
    done
    echo "$0: no $2.rs in $1" >&2
    exit 2
}
