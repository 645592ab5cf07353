#!/bin/sh
# Times SHAKE256 of this repository and of OpenSSL, and counts their instructions, and prints the table of
# docs/PERFORMANCE.md. Needs rt, a C compiler (CC, else clang or gcc), OpenSSL 3 with its headers, and for the counts
# valgrind.
set -eu

here=$(cd "$(dirname "$0")" && pwd)
root=$(cd "$here/../.." && pwd)

missing() {
    echo "missing: $1" >&2
    exit 1
}

rt=$(command -v rt) || missing "rt, the command of Rattle's kit"
cc=${CC:-$(command -v clang || command -v gcc || true)}
[ -n "$cc" ] || missing "a C compiler: install clang or gcc, or set CC"

work=$(mktemp -d)
trap 'rm -rf "$work"' EXIT

echo 'int main(void) { return 0; }' > "$work/probe.c"
"$cc" "$work/probe.c" -o "$work/probe" || missing "a C compiler that works: $cc does not"
printf '#include <openssl/evp.h>\nint main(void) { return EVP_MD_fetch(NULL, "SHAKE256", NULL) == NULL; }\n' > "$work/probe.c"
"$cc" "$work/probe.c" -lcrypto -o "$work/probe" 2> "$work/probe.log" ||
    missing "OpenSSL 3 and its headers (Debian: apt install libssl-dev)"

echo "proving and building libsponge_c.a .." >&2
(cd "$root/crates/sponge_c" && "$rt" lib) > "$work/lib.log" 2>&1 || {
    tail -n 20 "$work/lib.log" >&2
    missing "a proof of sponge_c (the end of rt's output is above)"
}
kit=$(dirname "$("$rt" doc)")
"$cc" -O2 "$here/bench.c" "$root/crates/sponge_c/out/libsponge_c.a" "$kit/c/liblibc_c.a" "$kit/c/libos_c.a" -lcrypto -o "$work/bench"

# Instructions of one call: those of 1,000 calls less those of none.
instructions() {
    valgrind --tool=callgrind --callgrind-out-file=/dev/null "$work/bench" count "$1" "$2" "$3" 2>&1 |
        sed -n 's/.*Collected : //p'
}
per_call() {
    if command -v valgrind > /dev/null; then
        echo $((($(instructions "$1" "$2" 1000) - $(instructions "$1" "$2" 0)) / 1000))
    else
        echo "-"
    fi
}
command -v valgrind > /dev/null || echo "missing: valgrind, so instructions are not counted" >&2

"$work/bench" time > "$work/times"
sed -n 's/^# //p' "$work/times"
echo
echo "| in / out, bytes | OpenSSL, whole | here, whole | OpenSSL, 3 parts | here, 3 parts |"
echo "|---|---|---|---|---|"
size=0
grep -v '^#' "$work/times" | while read -r in out times; do
    row="| $in / $out |"
    column=0
    for ns in $times; do
        row="$row $ns ns, $(per_call $column $size) instr. |"
        column=$((column + 1))
    done
    echo "$row"
    size=$((size + 1))
done
