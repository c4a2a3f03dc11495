#!/bin/sh
# The tables of docs/SPEED.md: sh tables.sh COUNTS SPEEDS PEAKS. What is ahead of both peers is bold.
set -eu
awk '
    BEGIN {
        split("u8s u64s strings map records", kinds, " ")
        split("bin json ron", formats, " ")
        title["bin"] = "binary"; title["json"] = "JSON"; title["ron"] = "RON"
        title["toml"] = "TOML"; title["indented"] = "JSON, indented"
        peer["bin"] = "bincode"; peer["json"] = "serde_json"; peer["ron"] = "ron"
        peer["toml"] = "toml"; peer["indented"] = "serde_json"
        type["u8s"] = "`Vec<u8>`"; type["u64s"] = "`Vec<u64>`"; type["strings"] = "`Vec<String>`"
        type["map"] = "`HashMap<String, i32>`"; type["records"] = "records"
        type["file"] = "a file"
    }
    FILENAME == ARGV[1] { count[$1 " " $2] = $3; next }
    FILENAME == ARGV[2] { speed[$1 " " $2] = $3; next }
    { peak[$1] = $2 }
    function millions(name, size) {
        return (name " " size) in count ? sprintf("%.1f", count[name " " size] / 1e6) : ""
    }
    function bold(words) { return words == "" ? "" : "**" words "**" }
    # Bold where the port is ahead of both peers: fewer instructions, more speed, a lower peak.
    function less(words, one, other) {
        return words != "" && words + 0 < one + 0 && words + 0 < other + 0 ? bold(words) : words
    }
    function more(words, one) { return words != "" && words + 0 > one ? bold(words) : words }
    # Instructions over those of the best peer, which needs the least.
    function ratio(case, format, op,   one, other, here) {
        one = count[case "/nanoserde/" op " 1"]
        other = count[case "/" peer[format] "/" op " 1"]
        here = count[case "/port/" op " 1"]
        if (one == "" || other == "" || here == "") return ""
        return less(sprintf("%.2f", here / (one + 0 < other + 0 ? one : other)), 1, 1)
    }
    # Speed over that of the best peer in the same run, which is the fastest.
    function ahead(case, format, op, size,   one, other, here) {
        one = speed[case "/nanoserde/" op " " size]
        other = speed[case "/" peer[format] "/" op " " size]
        here = speed[case "/port/" op " " size]
        if (one == "" || other == "" || here == "") return ""
        return more(sprintf("%.2f", here / (one + 0 > other + 0 ? one : other)), 1)
    }
    function beside(format, kind, op,   case) {
        case = format "/" kind
        return " " ratio(case, format, op) " | " ahead(case, format, op, 1) " | " \
            ahead(case, format, op, 10) " |"
    }
    function reads_alone(format) { return format == "toml" || format == "indented" }
    function beside_row(format, kind) {
        print "| " title[format] " | " type[kind] " |" beside(format, kind, "read") \
            (reads_alone(format) ? " | | |" : beside(format, kind, "norm"))
    }
    function half(format, kind, op,   case, one, other, here) {
        case = format "/" kind
        one = millions(case "/nanoserde/" op, 1)
        other = millions(case "/" peer[format] "/" op, 1)
        here = millions(case "/port/" op, 1)
        return " " one " | " other " | " less(here, one, other) " |"
    }
    function row(format, kind) {
        print "| " title[format] " | " type[kind] " |" half(format, kind, "read") \
            (reads_alone(format) ? " | | |" : half(format, kind, "norm"))
    }
    function growth(case, op,   one, ten) {
        one = count[case "/port/" op " 1"]
        ten = count[case "/port/" op " 10"]
        return one == "" || ten == "" ? "" : sprintf("%.1f", ten / one)
    }
    function megabytes(name) {
        return name in peak ? sprintf("%.0f", peak[name] * 1024 / 1e6) : ""
    }
    # The instructions of a peer in C++, and the speed here over its own.
    function anchor(case, name,   size, words) {
        words = " " millions(case "/" name "/read", 1) " |"
        for (size = 1; size <= 10; size += 9)
            words = words " " over(speed[case "/port/read " size], speed[case "/" name "/read " size]) " |"
        return words
    }
    function over(here, there) {
        return here == "" || there == "" ? "" : more(sprintf("%.2f", here / there), 1)
    }
    function anchors(format, kind,   case) {
        case = format "/" kind
        print "| " title[format] " | " type[kind] " | " millions(case "/port/read", 1) " |" \
            anchor(case, "simdjson") anchor(case, "rapidjson")
    }
    function three(case, format,   one, other, here) {
        one = megabytes(case "/nanoserde/read")
        other = megabytes(case "/" peer[format] "/read")
        here = megabytes(case "/port/read")
        return " " one " | " other " | " less(here, one, other) " |"
    }
    END {
        print "| Format | Kind | read: instructions | speed, 1 MB | 10 MB |" \
            " read+write: instructions | speed, 1 MB | 10 MB |"
        print "|---|---|---|---|---|---|---|---|"
        for (f = 1; f <= 3; f++) for (k = 1; k <= 5; k++) beside_row(formats[f], kinds[k])
        for (k = 1; k <= 5; k++) beside_row("indented", kinds[k])
        beside_row("toml", "file")

        print "\n| Format | Kind | nanoserde read | peer read | here, read |" \
            " nanoserde read+write | peer read+write | here, read+write |"
        print "|---|---|---|---|---|---|---|---|"
        for (f = 1; f <= 3; f++) for (k = 1; k <= 5; k++) row(formats[f], kinds[k])
        for (k = 1; k <= 5; k++) row("indented", kinds[k])
        row("toml", "file")

        print "\n| Kind | binary read | binary read+write | JSON read | JSON read+write |" \
            " RON read | RON read+write |\n|---|---|---|---|---|---|---|"
        for (k = 1; k <= 5; k++) {
            line = "| " type[kinds[k]] " |"
            for (f = 1; f <= 3; f++) {
                case = formats[f] "/" kinds[k]
                line = line " " growth(case, "read") " | " growth(case, "norm") " |"
            }
            print line
        }
        print "| a TOML file | " growth("toml/file", "read") " | | | | | |"

        print "\n| Kind | nanoserde binary | bincode | here, binary | nanoserde JSON |" \
            " serde_json | here, JSON | nanoserde RON | ron | here, RON |"
        print "|---|---|---|---|---|---|---|---|---|---|"
        for (k = 1; k <= 5; k++) {
            line = "| " type[kinds[k]] " |"
            for (f = 1; f <= 3; f++) line = line three(formats[f] "/" kinds[k], formats[f])
            print line
        }
        print "\n| | nanoserde | toml | here |\n|---|---|---|---|"
        print "| a TOML file |" three("toml/file", "toml")

        print "\n| Format | Kind | here | simdjson | speed, 1 MB | 10 MB | RapidJSON | speed, 1 MB | 10 MB |"
        print "|---|---|---|---|---|---|---|---|---|"
        for (k = 1; k <= 5; k++) anchors("json", kinds[k])
        for (k = 1; k <= 5; k++) anchors("indented", kinds[k])
    }' "$1" "$2" "$3"
