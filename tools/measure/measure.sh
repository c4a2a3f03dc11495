#!/bin/sh
# Measures what docs/SPEED.md says: builds the port's side, runs it beside its peers, and prints the tables.
#
#     sh tools/measure/measure.sh SOURCES OUT [FILTER]
#
# SOURCES is the folder of the Rust crate nanoserde 0.1.37, OUT a folder for what is built. FILTER takes
# cases alone, such as json/records. It wants rt, cargo, valgrind, GNU time and the packages that
# peers/build.sh names. LIBRARY in the environment is a library of the port that is built already.
# OUT then has
#     counts.txt   FORMAT/KIND/PEER/OP MEGABYTES INSTRUCTIONS: all at 1 MB, the port also at 10 MB
#     speeds.txt   FORMAT/KIND/PEER/OP MEGABYTES MB/S: of nine runs the median, all peers in one
#                  process, in which they take turns; at 1 MB, of five such processes the one in
#                  which the port is in the middle. Only those of one case and size compare
#     peaks.txt    FORMAT/KIND/PEER/OP KIBIBYTES: the peak of a process that reads 10 MB
#     tables.md    the tables of these, which it prints
#     speed.svg    the picture of the ratios
set -eu
[ $# -ge 2 ] || { echo "usage: sh measure.sh SOURCES OUT [FILTER]" >&2; exit 2; }
here=$(cd "$(dirname "$0")" && pwd)
bench=$here/../../crates/bench
mkdir -p "$2"
out=$(cd "$2" && pwd)
filter=${3:-.}

[ -n "${LIBRARY:-}" ] || (cd "$bench" && rt lib)
sh "$here/peers/build.sh" "$1" "$out" "${LIBRARY:-$bench/out/libbench.a}"
program=$out/target/release/peers

# input FORMAT/KIND MEGABYTES: the file of that input
input() {
    file=$out/$(echo "$1" | tr / -)-$2
    [ -f "$file" ] || "$program" make "$1" "$2" "$file"
    echo "$file"
}

# counted NAME MEGABYTES: a line of counts.txt, or a word to say that the case failed
counted() {
    if valgrind --tool=callgrind --collect-atstart=no --toggle-collect=measured_region \
        --callgrind-out-file=/dev/null --log-file="$out/log" \
        "$program" file "$1" "$(input "${1%/*/*}" "$2")" 2> /dev/null < /dev/null
    then
        echo "$1 $2 $(sed -n 's/.*Collected : //p' "$out/log")" | tee -a "$out/counts.txt" >&2
    else
        echo "$1 fails" >&2
    fi
}

: > "$out/counts.txt"
: > "$out/peaks.txt"
"$program" --list | grep -E '/(read|norm)$' | grep -e "$filter" > "$out/names"
while read -r name; do
    counted "$name" 1
    case $name in */port/*) counted "$name" 10 ;; esac
    case $name in */read)
        /usr/bin/time -f "$name %M" -a -o "$out/peaks.txt" \
            "$program" file "$name" "$(input "${name%/*/*}" 10)" 2> /dev/null < /dev/null || true
    esac
done < "$out/names"

# raced MEGABYTES: one process in which all peers take turns. The C library keeps memory that is
# freed, so that no run pays for pages that the one before gave back to the kernel.
raced() {
    MALLOC_TRIM_THRESHOLD_=1000000000 MALLOC_MMAP_THRESHOLD_=1000000000 \
        MALLOC_TOP_PAD_=100000000 \
        "$program" --runs 9 --sizes "$1" ${filtered:+--filter "$filtered"}
}

filtered=${3:-}
for _ in 1 2 3 4 5; do raced 1; done > "$out/log"
raced 10 >> "$out/log"
# A line has the case, its size, and the names and speeds of the two peers, of the port, and of more peers.
awk '$1 ~ /.(read|norm)$/ && NF >= 8 {
    print $1, $2 < 5 ? 1 : 10, $8 / ($4 + 0 > $6 + 0 ? $4 : $6), $0
}' "$out/log" | sort -k 1,1 -k 2,2n -k 3,3n | awk '
    function middle(   word, words, part, i) {
        if (!many) return
        words = split(line[int((many + 1) / 2)], word, " ")
        split(word[1], part, "/")
        for (i = 6; i < words; i += 2)
            print part[1] "/" part[2] "/" word[i] "/" part[3], word[2], word[i + 1]
        many = 0
    }
    $1 " " $2 != name { middle() }
    { name = $1 " " $2; line[++many] = $0 }
    END { middle() }' > "$out/speeds.txt"

sh "$here/tables.sh" "$out/counts.txt" "$out/speeds.txt" "$out/peaks.txt" | tee "$out/tables.md"
sh "$here/picture.sh" "$out/counts.txt" "$out/speeds.txt" > "$out/speed.svg"
