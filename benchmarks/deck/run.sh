#!/bin/sh
# What a line of deck costs with 1,000 and with 10,000 messages sent: instructions by callgrind, for each line.
root=$(cd "$(dirname "$0")/../.." && pwd) || exit 1
command -v valgrind >/dev/null || { echo "deck benchmark: valgrind is not installed" >&2; exit 1; }
"$root/run" deck 1 1 </dev/null || exit 1
work=$(mktemp -d) || exit 1
trap 'rm -rf "$work"' EXIT

# A handshake, then loads down, of which each is heard as soon as it is sent: two lines for each message more.
script() {
    awk -v n="$1" 'BEGIN {
        print "0 invites 0"; for (i = 0; i < 4; i++) print "hears 0 " i
        for (i = 4; i < n; i++) { print "0 sends 0 7"; print "hears 0 " i }
    }'
}

instructions() {
    script "$1" > "$work/script"
    valgrind --tool=callgrind --callgrind-out-file=/dev/null "$root/crates/deck/out/deck" 1 1 < "$work/script" 2>&1 >/dev/null |
        sed -n 's/.*Collected : \([0-9]*\).*/\1/p'
}

few=$(instructions 500)
some=$(instructions 1000)
most=$(instructions 9500)
all=$(instructions 10000)
awk -v a="$few" -v b="$some" -v c="$most" -v d="$all" 'BEGIN {
    low = (b - a) / 1000; high = (d - c) / 1000
    printf "instructions a line, messages 500 to 1,000:    %.0f\n", low
    printf "instructions a line, messages 9,500 to 10,000: %.0f\n", high
    printf "ratio: %.3f\n", high / low
}'
