#!/bin/sh
# Times a load sealed and opened by this repository and the two SHAKE256 calls of OpenSSL that it takes at least, counts
# their instructions, and prints the table of docs/PERFORMANCE.md. Needs rt, a C compiler (CC, else clang or gcc),
# OpenSSL 3 with its headers, and for the counts valgrind.
set -eu

here=$(cd "$(dirname "$0")" && pwd)
root=$(cd "$here/../.." && pwd)

missing() {
    echo "missing: $1" >&2
    exit 1
}

rt=$(command -v rt) || missing "rt, the command of Rattle's kit"
cc=${CC:-$(command -v clang || command -v gcc || true)}
[ -n "$cc" ] || missing "a C compiler: install clang or gcc, or set CC"

work=$(mktemp -d)
trap 'rm -rf "$work"' EXIT

printf '#include <openssl/evp.h>\nint main(void) { return EVP_MD_fetch(NULL, "SHAKE256", NULL) == NULL; }\n' > "$work/probe.c"
"$cc" "$work/probe.c" -lcrypto -o "$work/probe" 2> "$work/probe.log" ||
    missing "OpenSSL 3 and its headers (Debian: apt install libssl-dev)"

echo "proving and building libsealing_c.a .." >&2
(cd "$root/crates/sealing_c" && "$rt" lib) > "$work/lib.log" 2>&1 || {
    tail -n 20 "$work/lib.log" >&2
    missing "a proof of sealing_c (the end of rt's output is above)"
}
kit=$(dirname "$("$rt" doc)")
"$cc" -O2 "$here/bench.c" "$root/crates/sealing_c/out/libsealing_c.a" "$kit/c/liblibc_c.a" "$kit/c/libos_c.a" -lcrypto -o "$work/bench"

# Instructions of one load: those of 1,000 loads less those of none.
instructions() {
    valgrind --tool=callgrind --callgrind-out-file=/dev/null "$work/bench" count "$1" "$2" 2>&1 |
        sed -n 's/.*Collected : //p'
}
per_load() {
    if command -v valgrind > /dev/null; then
        echo $((($(instructions "$1" 1000) - $(instructions "$1" 0)) / 1000))
    else
        echo "-"
    fi
}
command -v valgrind > /dev/null || echo "missing: valgrind, so instructions are not counted" >&2

"$work/bench" time > "$work/times"
sed -n 's/^# //p' "$work/times"
echo
echo "| OpenSSL, two calls | a load sealed | a load opened |"
echo "|---|---|---|"
column=0
row="|"
for ns in $(grep -v '^#' "$work/times"); do
    row="$row $ns ns, $(per_load $column) instr. |"
    column=$((column + 1))
done
echo "$row"
