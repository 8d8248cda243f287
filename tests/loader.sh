#!/usr/bin/env bash
# The exported entries from C, with guard bytes around every lent slice: the pack reader beside a second reading in C, the unk reader over the Rust's
# answers, and the example loader.
set -u
cd "$(dirname "$0")/.." || exit 2
made=$(mktemp -d) || exit 2
trap 'rm -rf "$made"' EXIT

# The compiler and what runs its programs: the archive is for x86-64, so elsewhere a cross compiler and an emulator.
compiler=cc
run=
if [ "$(uname -m)" != x86_64 ]; then
    compiler=x86_64-linux-gnu-gcc
    { command -v "$compiler" && command -v qemu-x86_64; } >/dev/null ||
        { apt-get update -qq && apt-get install -y -qq gcc-x86-64-linux-gnu libc6-dev-amd64-cross qemu-user >/dev/null; } || exit 2
    run='qemu-x86_64 -L /usr/x86_64-linux-gnu'
fi
flags='-O2 -std=c11 -D_POSIX_C_SOURCE=200809L -Wall -Wextra -Werror -Iinclude'

tools/archive terminal terminal_unk || exit 1
archives='target/staticlib/libterminal.a target/staticlib/libterminal_unk.a'
# shellcheck disable=SC2086
$compiler $flags -o "$made/packs" tests/c/packs.c tests/c/second_reading.c $archives || exit 1
# shellcheck disable=SC2086
$compiler $flags -o "$made/entries" tests/c/entries.c $archives || exit 1
# shellcheck disable=SC2086
$compiler $flags -o "$made/unk" tests/c/unk.c $archives || exit 1
# shellcheck disable=SC2086
$compiler $flags -o "$made/loader" examples/loader.c $archives || exit 1

wrong=0
# shellcheck disable=SC2086
$run "$made/packs" || wrong=1
# shellcheck disable=SC2086
$run "$made/entries" || wrong=1
# shellcheck disable=SC2086
$run "$made/unk" oracle/lists/unk.txt || wrong=1

# loads STATUS PACK WORDS [UNK]: the loader's status and words over a pack, and perhaps an unk.def, of these bytes (printf's escapes).
loads() {
    printf "$2" >"$made/a.pack"
    local files=a.pack
    if [ $# -eq 4 ]; then
        printf "$4" >"$made/unk.def"
        files='a.pack unk.def'
    fi
    # shellcheck disable=SC2086
    (cd "$made" && $run ./loader $files >wrote 2>&1)
    local got=$?
    printf "$3" >"$made/expected"
    if [ "$got" -ne "$1" ] || ! cmp "$made/wrote" "$made/expected"; then
        printf 'loader: status %s, expected %s\n' "$got" "$1"
        wrong=1
    fi
}
loads 0 '\x01\x00\x40\x10\x00\x00\x00\x00\x0a\x0c\x00\x00\x00\x04' '1 categories, 1 definitions, 0 ranges, 0 references, 1 name bytes\n0 A\n'
loads 0 '\x01\x00\x00\x00\x00\x00\x00' '0 categories, 0 definitions, 0 ranges, 0 references, 0 name bytes\n'
loads 1 '\x02\x00\x00\x00\x00\x00\x00' 'a.pack: bit 0: refused 18: pack version is not 1\n'
loads 1 '\x01\x00\x00\x00' 'a.pack: bit 28: refused 19: pack ends inside a field\n'
loads 1 '\x01\x00\x00\x00\x40\x00\x00' 'a.pack: bit 54: refused 19: pack ends inside a field\n'
loads 1 '\x01\x00\x00\x00\x00\x00\x01' 'a.pack: bit 54: refused 21: pad bit set or bytes left over\n'
one='\x01\x00\x40\x10\x00\x00\x00\x00\x0a\x0c\x00\x00\x00\x04'
shown='1 categories, 1 definitions, 0 ranges, 0 references, 1 name bytes\n0 A\n'
loads 0 "$one" "${shown}2 entries, 11 detail bytes\nA 0 1 32767 x,y\n- 1 2 -3 \n" 'A,65536,1,-32769,x,y\nB,1,2,-3\n'
loads 1 "$one" "${shown}unk.def: line 2: refused 24: unk left, right or cost unreadable\n" 'A,1,2,3\nA,1,x,3\n'
loads 1 "$one" "${shown}unk.def: line 1: refused 23: unk line has under four fields\n" '\n'
loads 1 "$one" "${shown}unk.def: byte 8: refused 3: text not well-formed UTF-8\n" 'A,1,2,3,\xff'
exit "$wrong"
