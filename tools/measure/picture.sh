#!/bin/sh
# Draws docs/speed.svg: sh picture.sh COUNTS SPEEDS. On the left a bar is what the port needs in parts
# of what the best peer needs, the lesser of the Rust crate and the other one; on the right it is the
# port's speed over that of the best peer at 1 MB, and the dot is the same at 10 MB. The text is dark on
# a light page and light on a dark one, and the other colours stand out from both.
set -eu
awk '
    BEGIN {
        name_right = 142
        count_left = 150; count_one = 130; count_most = 1.8
        speed_left = 450; speed_one = 80; speed_most = 3
        grey = "#7d7d7d"; blue = "#3f87c6"; orange = "#d9801f"
        kinds["u8s"] = "Vec&lt;u8&gt;"; kinds["u64s"] = "Vec&lt;u64&gt;"
        kinds["strings"] = "Vec&lt;String&gt;"; kinds["map"] = "HashMap"
        kinds["records"] = "records"; kinds["file"] = "a file"
        formats["bin"] = "Binary"; formats["json"] = "JSON"; formats["ron"] = "RON"
        formats["toml"] = "TOML"
    }
    $1 ~ /simdjson|rapidjson/ { next }
    { split($1, part, "/"); key = part[1] " " part[2] " " part[4] " " $2 }
    FILENAME == ARGV[1] {
        formats_seen[part[1]] = 1
        if (part[3] == "port") count[key] = $3
        else if (!(key in least) || $3 < least[key]) least[key] = $3
        next
    }
    part[3] == "port" { speed[key] = $3; next }
    !(key in most) || $3 > most[key] { most[key] = $3 }

    function text(x, y, size, more, words) {
        body = body sprintf("<text x=\"%d\" y=\"%d\" font-size=\"%d\"%s>%s</text>\n",
            x, y, size, more, words)
    }
    # How wide a ratio is, cut off at the end of its half.
    function wide(ratio, one, end) { return (ratio < end ? ratio : end) * one }
    # A bar, and the ratio beside it or beside a dot that stands further right.
    function bar(left, ratio, width, dot, y, colour) {
        body = body sprintf("<rect x=\"%d\" y=\"%d\" width=\"%.1f\" height=\"9\" fill=\"%s\"/>\n",
            left, y, width < 1 ? 1 : width, colour)
        if (dot > 0) dots = dots sprintf("<circle cx=\"%.1f\" cy=\"%.1f\" r=\"2.5\"/>\n",
            left + dot, y + 4.5)
        text(left + (width > dot ? width : dot) + 6, y + 8, 10, "",
            sprintf(ratio < 10 ? "%.2f" : "%.0f", ratio))
    }
    function both(key, y, colour,   ratio, dot) {
        if ((key " 1") in count && (key " 1") in least) {
            ratio = count[key " 1"] / least[key " 1"]
            bar(count_left, ratio, wide(ratio, count_one, count_most), 0, y, colour)
        }
        if (!((key " 1") in speed && (key " 1") in most)) return
        dot = 0
        if ((key " 10") in speed && (key " 10") in most)
            dot = wide(speed[key " 10"] / most[key " 10"], speed_one, speed_most)
        ratio = speed[key " 1"] / most[key " 1"]
        bar(speed_left, ratio, wide(ratio, speed_one, speed_most), dot, y, colour)
    }
    function heading(x, words, line) {
        text(x, 38, 12, " font-weight=\"bold\"", words)
        text(x, 52, 10, "", line)
    }
    function dashed(x, y) {
        printf "<path d=\"M%d 60V%d\" stroke=\"%s\" stroke-dasharray=\"4 3\"/>\n", x, y, grey
    }
    END {
        heading(count_left, "Instructions over the best peer&#8217;s",
            "at 1 MB: left of the line is ahead")
        heading(speed_left, "Speed over the best peer&#8217;s",
            "at 1 MB, the dot at 10 MB: right of the line is ahead")
        y = 62
        many = split("bin json ron toml", format, " ")
        for (f = 1; f <= many; f++) {
            if (!(format[f] in formats_seen)) continue
            text(10, y + 12, 13, " font-weight=\"bold\"", formats[format[f]])
            y += 20
            all = format[f] == "toml" ? "file" : "u8s u64s strings map records"
            last = split(all, kind_of, " ")
            for (k = 1; k <= last; k++) {
                text(name_right, y + 13, 12, " text-anchor=\"end\"", kinds[kind_of[k]])
                both(format[f] " " kind_of[k] " read", y, blue)
                both(format[f] " " kind_of[k] " norm", y + 10, orange)
                y += 26
            }
            y += 6
        }
        printf "<svg xmlns=\"http://www.w3.org/2000/svg\" width=\"760\" height=\"%d\" ", y + 10
        printf "fill=\"%s\" font-family=\"sans-serif\" role=\"img\">\n", grey
        print "<title>Instructions and speed of the port over those of the best peer</title>"
        print "<style>text { fill: #333 }"
        print "@media (prefers-color-scheme: dark) { text { fill: #ddd } }</style>"
        printf "<rect x=\"10\" y=\"10\" width=\"12\" height=\"9\" fill=\"%s\"/>\n", blue
        print "<text x=\"27\" y=\"18\" font-size=\"12\">read</text>"
        printf "<rect x=\"70\" y=\"10\" width=\"12\" height=\"9\" fill=\"%s\"/>\n", orange
        print "<text x=\"87\" y=\"18\" font-size=\"12\">read and written again</text>"
        dashed(count_left + count_one, y)
        dashed(speed_left + speed_one, y)
        printf "%s<g fill=\"#fff\" stroke=\"#555\">\n%s</g>\n</svg>\n", body, dots
    }' "$1" "$2"
