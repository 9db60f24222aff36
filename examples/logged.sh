#!/bin/sh
# A host on the standard input and output that adds each frame that comes to a log before it reads it. It begins with the frames
# that the log has, and doesn't give their answers again. What is no whole frame comes to the host alone, which refuses it, and
# not into the log: logged.sh COMMAND TABLE ACCOUNTS HEADER LOG
set -eu
command=$1
table=$2
accounts=$3
header=$4
log=$5

host() {
    "$command" run "$table" "$accounts" "$header"
}

# how many bytes the log's frames were answered with; a log that ends inside a frame is refused
touch "$log"
host < "$log" > "$log.answers" 2> "$log.told" || { cat "$log.told" >&2; exit 1; }
answered=$(wc -c < "$log.answers")
rm "$log.answers" "$log.told"

# HEADER LOG: writes each frame to the log once it is whole, and then to the output; up to the first that is cut, or has a
# header that isn't of digits, which is written to the output alone
keep='
import signal, sys
header, path = sys.argv[1:]
signal.signal(signal.SIGPIPE, signal.SIG_DFL)
width = 4 if header == "ascii4" else 2

def told(head):
    if len(head) < width:
        return None
    if header == "binary2":
        return int.from_bytes(head, "big")
    digits = head if header == "ascii4" else head.hex().encode()
    return int(digits) if digits.isdigit() else None

with open(path, "ab") as log:
    is_whole = True
    while is_whole:
        frame = sys.stdin.buffer.read(width)
        length = told(frame)
        frame += sys.stdin.buffer.read(length or 0)
        is_whole = length is not None and len(frame) == width + length
        if is_whole:
            log.write(frame)
            log.flush()
        sys.stdout.buffer.write(frame)
        sys.stdout.buffer.flush()
'
{ cat "$log"; python3 -c "$keep" "$header" "$log"; } | host | stdbuf -o0 tail -c +"$((answered + 1))"
