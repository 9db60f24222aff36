#!/bin/sh
# Makes a capture of a file of frames: a packet for each frame, sent to TCP port 8583, which Wireshark's dissector of ISO 8583
# can read. Each frame gets the header that the dissector wants, two bytes with the high one first, in place of its own. HEADER
# is the file's: binary2, ascii4 or bcd2. It needs text2pcap, which is a part of Wireshark: wireshark.sh HEADER FILE CAPTURE
set -eu
header=$1
file=$2
capture=$3

case $header in
    ascii4 | binary2 | bcd2) ;;
    *) echo "wireshark.sh: no header $header" >&2; exit 2 ;;
esac
command -v text2pcap > /dev/null || { echo "wireshark.sh: no program text2pcap: install Wireshark" >&2; exit 3; }
folder=$(mktemp -d)
trap 'rm -rf "$folder"' EXIT
trap 'exit 1' HUP INT TERM

# from the file as hexadecimal digits to the packets as text2pcap reads them: an offset, and the bytes
packets='
    function value(hex,    at, sum) {
        for (at = 1; at <= length(hex); at++) sum = 16 * sum + index("0123456789abcdef", substr(hex, at, 1)) - 1
        return sum
    }
    # the length that a header tells, or -1 where it is not of digits
    function told(hex,    at, digits) {
        if (header == "binary2") return value(hex)
        if (header == "bcd2") return hex ~ /^[0-9]*$/ ? hex + 0 : -1
        for (at = 1; at <= 7; at += 2) digits = digits (substr(hex, at, 1) == 3 ? substr(hex, at + 1, 1) : "x")
        return digits ~ /^[0-9]*$/ ? digits + 0 : -1
    }
    function end(fault) {
        print "wireshark.sh: " fault " at byte " int(at / 2) > "/dev/stderr"
        exit 1
    }
    { hex = hex $0 }
    END {
        width = header == "ascii4" ? 8 : 4
        for (at = 1; at <= length(hex); at += width + 2 * size) {
            size = told(substr(hex, at, width))
            if (size < 0) end("no header of digits")
            body = substr(hex, at + width, 2 * size)
            if (length(body) < 2 * size) end("a frame that is cut")
            gsub(/../, "& ", body)
            printf "000000 %02x %02x %s\n", int(size / 256), size % 256, body
        }
    }'
od -An -v -tx1 "$file" | tr -d ' \n' | awk -v header="$header" "$packets" > "$folder/packets"
text2pcap -q -T 40000,8583 "$folder/packets" "$capture" > "$folder/told" 2>&1 || { cat "$folder/told" >&2; exit 1; }
