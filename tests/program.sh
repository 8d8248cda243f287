#!/usr/bin/env bash
# ./twinebeetle as a user runs it: each command, each refusal that a text can have, and what cannot be read or written. What is
# expected is written here, or made by oracle/program.py, which shares nothing with our code.
set -u
cd "$(dirname "$0")/.." || exit 2
made=$(mktemp -d) || exit 2
trap 'rm -rf "$made"' EXIT
wrong=0

fault() {
    printf '%s\n' "$1"
    wrong=1
}

# expect NAME STATUS ARGUMENT..: the run's status, and that it wrote what stands in $made/expected to standard output.
expect() {
    local name=$1 status=$2
    shift 2
    ./twinebeetle "$@" >"$made/wrote" 2>"$made/said"
    local got=$?
    [ "$got" -eq "$status" ] || fault "$name: status $got, expected $status"
    cmp "$made/wrote" "$made/expected" || fault "$name: wrote something else"
    [ "$status" -eq 1 ] || [ ! -s "$made/said" ] || fault "$name: said something"
}

# complains NAME WORDS ARGUMENT..: nothing on standard output, one sentence with WORDS on standard error, status 1.
complains() {
    local name=$1 words=$2
    shift 2
    : >"$made/expected"
    expect "$name" 1 "$@"
    [ "$(wc -l <"$made/said")" -eq 1 ] || fault "$name: not one sentence"
    grep -qF -- "$words" "$made/said" || fault "$name: said $(cat "$made/said")"
}

# by_paper NAME ARGUMENT..: the run against oracle/program.py.
by_paper() {
    local name=$1
    shift
    python3 oracle/program.py "$@" >"$made/expected"
    expect "$name" $? "$@"
}

# reads NAME TEXT ARGUMENT..: a text, with printf's escapes, as standard input of the arguments, against oracle/program.py.
reads() {
    local name=$1
    printf "$2" >"$made/text"
    shift 2
    python3 oracle/program.py "$@" <"$made/text" >"$made/expected"
    expect "$name" $? "$@" <"$made/text"
}

# ---- help, and what cannot be obeyed

./twinebeetle help >"$made/help" || fault 'help: not 0'
for command in check show at pack unpack unk help; do
    [ "$(grep -c "^  ./twinebeetle $command " "$made/help")" -eq 1 ] || fault "help: no line for $command"
done
[ "$(wc -l <"$made/help")" -eq 7 ] || fault 'help: not seven lines'
./twinebeetle --help | cmp - "$made/help" || fault '--help: not as help'

complains 'no such command' 'there is no command sow' sow samples/char.def
complains 'a missing argument' 'an argument is missing: ./twinebeetle check FILE' check
complains 'a missing second argument' 'an argument is missing: ./twinebeetle unk FILE UNK' unk samples/char.def
complains 'no code' 'an argument is missing: ./twinebeetle at FILE CODE..' at samples/char.def
complains 'an argument too many' 'too many: ./twinebeetle show FILE' show samples/char.def samples/char.def
complains 'a file that is missing' "cannot read $made/none: No such file" check "$made/none"
complains 'a pack that is missing' "cannot read $made/none: No such file" unpack "$made/none"
complains 'an unk.def that is missing' "cannot read $made/none: No such file" unk samples/char.def "$made/none"
complains 'a directory' "cannot read $made: Is a directory" check "$made"
complains 'a directory for unk.def' "cannot read $made: Is a directory" unk samples/char.def "$made"
complains 'an empty name' 'cannot read : No such file' show ''
complains 'a name too long' 'cannot read a file by this name: File name too long' show "$(head -c 5000 /dev/zero | tr '\0' a)"
complains 'no code point' 'xyz is no code point' at samples/char.def 3042 xyz
complains 'a code point without digits' 'U+ is no code point' at samples/char.def U+
complains 'standard input twice' 'standard input can be only one of the two' unk - - </dev/null

# cannot_write NAME WORDS ARGUMENT..: standard output takes nothing.
cannot_write() {
    local name=$1 words=$2
    shift 2
    ./twinebeetle "$@" >/dev/full 2>"$made/said"
    [ $? -eq 1 ] || fault "$name: not 1"
    grep -qF "$words" "$made/said" || fault "$name: no word said"
}
cannot_write 'a full disk' 'cannot write to standard output: No space left' show samples/char.def
cannot_write 'a full disk for a pack' 'cannot write to standard output: No space left' pack samples/char.def -

# ---- check

echo 'samples/char.def: accepted: 11 categories, 11 definitions, 57 ranges, 69 references, 69 name bytes' >"$made/expected"
expect 'the sample' 0 check samples/char.def
cat "$made/help" >>"$made/expected"
expect 'no argument' 0
(cd / && "$OLDPWD/twinebeetle") | cmp - "$made/expected" || fault 'no argument, from another folder'

{ printf -- '-:2: byte 11: refused 3: text not well-formed UTF-8\n' && printf '\xe3\x81\x82\xed\xa0\x80x\n'; } >"$made/expected"
expect 'an ill-formed text' 1 check - < <(printf 'A 1 0 2\n\xe3\x81\x82\xed\xa0\x80x\nB')

printf -- '-:3: refused 5: bound is no 16-bit hex number\n0x4..g \xe3\x81\x82 \r\n' >"$made/expected"
expect 'a bad line' 1 check - < <(printf 'A 1 0 2\n\n0x4..g \xe3\x81\x82 \r\n0x41 A\n')

printf -- '-: refused 2: text over 65,536 bytes\n' >"$made/expected"
expect 'a text one byte too long' 1 check - < <(head -c 65537 /dev/zero)
expect 'a text of a megabyte' 1 check - < <(head -c 1048576 /dev/zero)
expect 'an unk.def one byte too long' 1 unk samples/char.def - < <(head -c 65537 /dev/zero)

echo '-: accepted: 0 categories, 0 definitions, 0 ranges, 0 references, 0 name bytes' >"$made/expected"
expect 'the longest text' 0 check - < <(yes '#' | head -c 65536)
expect 'an empty text' 0 check - </dev/null

reads 'refusal 4' '0x41....0x43 A' check -
reads 'refusal 5' '\n# x\n0x10000 A\n' check -
reads 'refusal 6' '0x41..FFFE A\n' check -
reads 'refusal 7' 'A 1 0 2\nA 1 0' check -
reads 'refusal 8' 'A 1 0 4294967296\n\n' check -
reads 'refusal 9' "$(yes '0x41\n' | head -n 2049 | tr -d '\n')" check -
reads 'refusal 10' "0x41$(yes ' A' | head -n 8192 | tr -d '\n')\\n\\n0x42 A\\n" check -
reads 'refusal 11' "$(yes 'A 1 0 2\n' | head -n 513 | tr -d '\n')" check -
reads 'refusal 12' "0x41$(seq -f ' N%g' 512 | tr -d '\n')\\n0x42 N1 B\\n" check -
reads 'refusal 13' "0x41 $(yes A | head -n 16384 | tr -d '\n')\\nB 1 1 1\\n" check -

# ---- show

by_paper 'the sample shown' show samples/char.def
printf 'A\\\\\x01\xe3\x80\x80B 1 0 +2\n0x43..41 \x7f\n0x0..0xFFFF' >"$made/odd"
by_paper 'odd names' show "$made/odd"
printf '0xg\n' >"$made/bad"
by_paper 'a refused text shown' show "$made/bad"
reads 'an empty text shown' '' show -

# 4,097 rows, and 512 categories in each but the first.
{
    printf '0x1..0xFFFD' && seq -f ' N%g' 512 | tr -d '\n' && echo
    seq 2047 | awk '{ printf "0x%X..%X\n", 4 * $1, 4 * $1 + 1 }'
} >"$made/large"
by_paper 'the largest rows' show "$made/large"
(ulimit -S -s 1024 && ./twinebeetle show "$made/large") | cmp - "$made/expected" || fault 'the largest rows on a small stack'

# ---- at

by_paper 'code points' at samples/char.def 3042 U+0041 u+3007 0xff66 0 10FFFF 00000041
by_paper 'no scalar values' at samples/char.def D7FF D800 dfff E000 110000 41 FFFFFFFFFFFFFFFFFFFFFFFF
printf '0x41 A\n0x41..42 B A\n0x44\n' >"$made/two"
by_paper 'an empty row' at "$made/two" 41 42 43 44 20000
by_paper 'a refused text asked' at "$made/bad" 41
reads 'standard input asked' 'DEFAULT 0 0 0' at - 41

# ---- pack and unpack

python3 oracle/program.py pack samples/char.def "$made/right.pack" >/dev/null
echo "$made/sample.pack: packed: $(wc -c <"$made/right.pack") bytes" >"$made/expected"
expect 'the sample packed' 0 pack samples/char.def "$made/sample.pack"
cmp "$made/sample.pack" "$made/right.pack" || fault 'the sample packed: another pack'
by_paper 'the sample to standard output' pack samples/char.def -
by_paper 'the sample unpacked' unpack "$made/sample.pack"
./twinebeetle show samples/char.def | cmp - "$made/expected" || fault 'the sample unpacked: not as shown'
./twinebeetle pack - - <"$made/large" | ./twinebeetle unpack - >"$made/wrote"
./twinebeetle show "$made/large" | cmp - "$made/wrote" || fault 'the largest rows unpacked: not as shown'

by_paper 'a refused text packed' pack "$made/bad" "$made/none"
[ ! -e "$made/none" ] || fault 'a refused text packed: something was written'
complains 'a pack in no folder' "cannot write $made/none/x: No such file" pack samples/char.def "$made/none/x"
complains 'a pack in the place of a folder' "cannot write $made: Is a directory" pack samples/char.def "$made"
complains 'a pack on a full disk' 'cannot write /dev/full: No space left' pack samples/char.def /dev/full
cp samples/char.def "$made/kept"
complains 'a pack over its text' "$made/kept would be written over itself" pack "$made/kept" "$made/kept"
cmp samples/char.def "$made/kept" || fault 'a pack over its text: it was written'

reads 'refusal 18' '\002' unpack -
reads 'refusal 19' '\001\000\100' unpack -
reads 'refusal 20' '\001\000\100\020\000\000\000\000\000' unpack -
reads 'refusal 21' '\001\000\000\000\000\000\000\n' unpack -
by_paper 'a text unpacked' unpack samples/char.def
cat "$made/sample.pack" /dev/zero 2>/dev/null | head -c 1048576 >"$made/long.pack"
by_paper 'a pack of a megabyte' unpack "$made/long.pack"

# ---- unk

by_paper 'the sample entries' unk samples/char.def samples/unk.def
reads 'odd entries' 'KANJI,65536,1,-32769,x,y\r\nnone,0,4294967295,2147483647\nLATIN,+1,2,-1,\n,1,2,+3,,\\\\a\x01\r' unk samples/char.def -
reads 'no entries' '' unk samples/char.def -
reads 'a char.def from standard input' 'KANJI 1 1 1' unk - samples/unk.def
reads 'refusal 23' 'A,1,2,3\n\nA,1,2,3' unk samples/char.def -
reads 'refusal 24' 'A,1,2,3\nA,1,-2,3,\xe3\x81\x82' unk samples/char.def -
reads 'refusal 25' "$(yes 'A,1,2,3\n' | head -n 4097 | tr -d '\n')" unk samples/char.def -
reads 'an ill-formed unk.def' 'A,1,2,3\nA,\xff' unk samples/char.def -
by_paper 'a refused char.def' unk "$made/bad" samples/unk.def

# ---- docs/FORMAT.md

# The runs that it shows, on the files that it shows.
cp crates/twinebeetle/stdin "$made/char.def"
printf 'KANJI,1285,1285,11426,noun,general\nKANA,1285,1285,-12,noun\n' >"$made/unk.def"
sed -n '/^## The program/,/^## Refusals/{/^    /s/^    //p}' docs/FORMAT.md >"$made/shown"
program=$PWD/twinebeetle
(cd "$made" && sed -n 's/^\$ \.\/twinebeetle //p' shown | while read -r words; do
    echo "\$ ./twinebeetle $words"
    # shellcheck disable=SC2086
    "$program" $words
done) | cmp - "$made/shown" || fault 'docs/FORMAT.md shows other runs'

# The bytes of the pack that it takes apart.
packed=$(printf 'A 1 0 2' | ./twinebeetle pack - - | od -An -tx1 | tr -s ' \n' ' ')
grep -qF "The one line \`A 1 0 2\` gives \`$(sed 's/^ //; s/ $//' <<<"$packed")\`:" docs/FORMAT.md || fault "docs/FORMAT.md: A 1 0 2 is packed as$packed"

# refused_as NUMBER TEXT: an example of its table is refused by that number, at line 1.
refused_as() {
    local words=(check -)
    [ "$1" -lt 23 ] || words=(unk samples/char.def -)
    ./twinebeetle "${words[@]}" < <(printf '%s' "$2") >"$made/wrote"
    grep -q "^-:1: refused $1: " "$made/wrote" || fault "docs/FORMAT.md: $2 is not refused by $1"
}
examples=0
while read -r number given; do
    while read -r text; do
        refused_as "$number" "$text"
        examples=$((examples + 1))
    done < <(grep -o '`[^`]*`' <<<"$given" | tr -d '`')
done < <(sed -nE 's/^\| ([4-8]|23|24) \| [^|]+ \| ([^|]+) \|.*/\1 \2/p' docs/FORMAT.md)
[ "$examples" -eq 12 ] || fault "docs/FORMAT.md: $examples examples, expected 12"

exit "$wrong"
