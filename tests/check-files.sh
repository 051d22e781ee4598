#!/usr/bin/env bash
# Runs `nova check` on files that hold no region, or that can't be read, and scripts with a bad line, a cut region or a long
# read, and compares what they write, what they say on standard error, and their exit status.
# Needs the built program (`./nova` builds it). The file without permission needs root, and is left out for others.
# Prints a line for each difference, and closes with 'N passed, M failed'.
set -u
source "$(dirname "${BASH_SOURCE[0]}")/parts.sh" || exit 2
program=${NOVA:-$built}
needs_program "$program"
chmod 755 "$folder"
newline=$'\n'
# U+FFFD, which stands for bytes that aren't UTF-8.
replacement=$'\xef\xbf\xbd'

# expect NAME STATUS OUTPUT ERROR COMMAND..: what the command has to answer, to write and to say.
expect() {
    local name=$1 status=$2 output=$3 error=$4
    shift 4
    local found_output found_status found_error
    found_output=$("$@" 2>"$folder/error" </dev/null)
    found_status=$?
    found_error=$(cat "$folder/error")
    [ "$found_status" = "$status" ] && [ "$found_output" = "$output" ] && [ "$found_error" = "$error" ]
    holds "$name: status $found_status, wrote '$found_output', said '$found_error'" $?
}

: >"$folder/empty"
head -c 100 /dev/zero >"$folder/short"
mkdir "$folder/folder"
truncate -s 1073741824 "$folder/longest"
truncate -s 1073741825 "$folder/longer"
lengths="a region has a multiple of 4096, from 32768 to 1073741824"
words="with one space between two words, and numbers in decimal up to 18446744073709551615"
long_way=$(printf './%.0s' {1..300})
not_utf8=$folder/$'a\xffb'
: >"$not_utf8"

# expect_script NAME STATUS OUTPUT ERROR SCRIPT: the same of a script, whose backslashes printf reads.
expect_script() {
    # shellcheck disable=SC2016
    expect "$1" "$2" "$3" "$4" bash -c 'printf "$1" | "$2" run' bash "$5" "$program"
}

expect "an empty file" 2 "refused S1" "it has 0 bytes; $lengths" "$program" check "$folder/empty"
expect "100 bytes" 2 "refused S1" "it has 100 bytes; $lengths" "$program" check "$folder/short"
expect "100 bytes, 64 workers" 2 "refused S1" "it has 100 bytes; $lengths" "$program" check "$folder/short" --workers 64
magic="that of a region is 3544417913829478222, the text NOVAPM01"
expect "a file of zeros as long as the longest region" 2 "refused S2" "its first word is 0; $magic" "$program" check "$folder/longest"
expect "in 64 MiB a file of zeros as long" 2 "refused S2" "its first word is 0; $magic" \
    bash -c 'ulimit -v 65536; exec "$1" check "$2"' bash "$program" "$folder/longest"
expect "a file longer than a region can be" 2 "refused S1" "it has 1073741825 bytes; $lengths" "$program" check "$folder/longer"
expect "a path of more than 600 bytes" 2 "refused S1" "it has 100 bytes; $lengths" "$program" check "$folder/${long_way}short"
expect "a pipe that is longer than a region can be" 2 "refused S1" "it has more than 1073741824 bytes; $lengths" \
    bash -c 'head -c 1073741825 /dev/zero | "$1" check /dev/stdin' bash "$program"
expect "a missing file" 2 "" "cannot read $folder/missing${newline}no such file" "$program" check "$folder/missing"
expect "a folder" 2 "" "cannot read $folder/folder${newline}it is a directory" "$program" check "$folder/folder"
expect "a file in the place of a folder" 2 "" "cannot read $folder/short/a${newline}Not a directory (os error 20)" \
    "$program" check "$folder/short/a"
expect "a path that isn't UTF-8" 2 "" "cannot read $folder/a${replacement}b${newline}its path isn't UTF-8" \
    "$program" check "$not_utf8" --workers 2
# What an image is refused for: what was found, and what is taken.
"$program" mkfs "$folder/region" --blocks 16 --cpus 1 --tables 1
sums="inodes 1, directories 1, files 0, names 0, blocks in use 1, free 12, faults 0"
expect "several images" 2 "$folder/region: $sums${newline}$folder/short: refused S1${newline}$folder/region: $sums" \
    "cannot read $folder/missing${newline}no such file${newline}it has 100 bytes; $lengths" \
    "$program" check "$folder/region" "$folder/missing" "$folder/short" "$folder/region"
# Of each image a line says what is said of it alone; a plain file and a pipe are read in different ways.
for image in "$here/examples/ring.img" "$folder/region" "$folder/short"; do
    for option in --summary --only-faults --json; do
        alone=$("$program" check "$image" $option 2>/dev/null)
        status=$?
        expect "$image among several, $option" "$status" "$(sed "s|^|$image: |" <<<"$alone"; sed "s|^|/dev/stdin: |" <<<"$alone")" "" \
            bash -c '"$1" check "$2" /dev/stdin "$3" <"$2" 2>/dev/null' bash "$program" "$image" $option
    done
done
expect "several images on several threads" 0 "$folder/region: $sums${newline}$folder/region: $sums" "" "$program" check "$folder/region" "$folder/region" --workers 3
expect "the faults of several images" 1 "$here/examples/ring.img: $("$program" check "$here/examples/ring.img" --only-faults)${newline}$folder/region: no faults" \
    "nova explain CLASS says what a fault means, as nova explain L2 does for L2" \
    "$program" check --only-faults "$here/examples/ring.img" "$folder/region"
# A report as JSON: how many inodes are in use, the first free run of CPU 0, and the faults.
read_json='import json, sys
report = json.load(sys.stdin)
run = report["free"][0][0]
faults = ["{class} of {inode} at {at}".format(**fault) for fault in report["faults"]]
print(len(report["inodes"]), run["start"], run["count"], *faults)'
# shellcheck disable=SC2016
with_json='set -o pipefail; "$1" check "$2" --json | python3 -c "$3"'
expect "a report with a fault as JSON" 1 "1 5 11 L2 of 1 at 20448" "nova explain CLASS says what a fault means, as nova explain L2 does for L2" \
    bash -c "$with_json" bash "$program" "$here/examples/ring.img" "$read_json"
expect "a sound report as JSON" 0 "1 4 12" "" bash -c "$with_json" bash "$program" "$folder/region" "$read_json"
expect "a refused image as JSON" 2 "refused S1" "it has 100 bytes; $lengths" "$program" check "$folder/short" --json
expect "two outputs at once" 2 "" \
    "error: only one of the arguments '--summary', '--only-faults', '--json', '--explain' and '--journal' can be used, and '--explain' and '--journal' with one path alone${newline}${newline}Usage: nova check [OPTIONS] <path>${newline}${newline}For more information, try '--help'." \
    "$program" check "$folder/region" --json --summary
# A report with a sentence for each fault.
with_sentences="nova explain CLASS says what a fault means, as nova explain L2 does for L2"
expect "a fault in a sentence" 1 "$("$program" check "$here/examples/ring.img" 2>/dev/null)
L2 inode 1 at 20448: block 4 has at offset 4064 the word 12288; the link of a log's page leads to one that wasn't read before" \
    "$with_sentences" "$program" check "$here/examples/ring.img" --explain
expect "no fault in a sentence" 0 "$("$program" check "$folder/region")" "" "$program" check "$folder/region" --explain
expect "a refused image and sentences" 2 "refused S1" "it has 100 bytes; $lengths" "$program" check "$folder/short" --explain
for others in "$folder/region --json" "$folder/region --summary" "$folder/region $folder/short"; do
    # shellcheck disable=SC2086
    "$program" check $others --explain >"$folder/out" 2>"$folder/said"
    same "sentences of $others" "2  error: only one of the arguments '--summary', '--only-faults', '--json', '--explain' and '--journal' can be used, and '--explain' and '--journal' with one path alone" \
        "$? $(cat "$folder/out") $(head -n 1 "$folder/said")"
done
# word AT VALUE: the region, with this word of less than 256 there.
word() {
    cp "$folder/region" "$folder/changed"
    # shellcheck disable=SC2059
    printf "\\$(printf '%o' "$2")\\0\\0\\0\\0\\0\\0\\0" | dd of="$folder/changed" bs=1 seek="$1" conv=notrunc status=none
}
word 0 1
expect "another magic" 2 "refused S2" "its first word is 1; $magic" "$program" check "$folder/changed"
word 8 9
expect "another version" 2 "refused S3" "its version is 9; 1 and 2 are taken" "$program" check "$folder/changed"
word 16 65
expect "too many CPUs" 2 "refused S4" "it has 65 CPUs; a region has 1 to 64" "$program" check "$folder/changed"
word 24 17
expect "another number of blocks" 2 "refused S5" "it was cut or made longer: it tells 17 blocks, and has 16" "$program" check "$folder/changed"
word 32 14
expect "too many table blocks" 2 "refused S6" \
    "a CPU has 1 to 64 table blocks, and a block is left for data; it has 1 CPUs, 14 table blocks for each, and 16 blocks" \
    "$program" check "$folder/changed"
word 40 2
expect "another state" 2 "refused S7" "its state is 2; 0 and 1 are taken" "$program" check "$folder/changed"
expect "another state, listed" 2 "" "refused S7${newline}its state is 2; 0 and 1 are taken" "$program" ls "$folder/changed"
expect "another state, mapped" 2 "" "refused S7${newline}its state is 2; 0 and 1 are taken" "$program" map "$folder/changed"
# The slot of inode 1 begins at byte 8320, and has the kind in its second word.
word 8328 7
expect "a kind that is none, in a sentence" 0 \
    "I2 inode 1: block 2 has at offset 136 the word 7; the kind of a slot in use is 1, a file, or 2, a directory${newline}C5: inode 1 is a directory in use" \
    "" bash -c '"$1" check "$2" --explain 2>/dev/null | tail -n 2' bash "$program" "$folder/changed"
head -c 65536 /dev/zero >"$folder/other"
printf '\123\357' | dd of="$folder/other" bs=1 seek=1080 conv=notrunc status=none
expect "an image of ext4" 2 "refused S2" "its first word is 0; $magic${newline}by its first bytes it is an image of ext2, ext3 or ext4" \
    "$program" check "$folder/other"
printf 'XFSB' | dd of="$folder/other" bs=1 conv=notrunc status=none
expect "an image of XFS" 2 "refused S2" "its first word is 1112753752; $magic${newline}by its first bytes it is an image of XFS" \
    "$program" check "$folder/other"
gzip -c "$folder/region" >"$folder/packed"
expect "a compressed image" 2 "refused S1" \
    "it has $(stat -c %s "$folder/packed") bytes; $lengths${newline}by its first bytes it is compressed by gzip" "$program" check "$folder/packed"
expect "a name that isn't there" 2 "" "refused NotFound" "$program" cat "$folder/region" /none

# Names that are printed with escapes are given back with them: one with a space and a byte that isn't UTF-8, and a backslash.
"$program" mkfs "$folder/names" --blocks 16 --cpus 1 --tables 1
printf 'recover 1\ncreate 0 /\303\251\t\377\ncreate 0 /a\\b\nwrite 0 /a\\b 0 1 65\n' >"$folder/names.nova"
"$program" run "$folder/names.nova" --image "$folder/names" --save "$folder/names" >/dev/null
expect "names with escapes" 0 "\\x5cb" "" bash -c '"$1" ls "$2" | grep -o "x5cb" | sed "s/^/\\\\/"' bash "$program" "$folder/names"
for name in $("$program" ls "$folder/names" | cut -d' ' -f1); do
    expect "the name $name" 0 "" "" bash -c '"$1" stat "$2" "/$3" >/dev/null' bash "$program" "$folder/names" "$name"
done
expect "a name with a backslash" 0 "A" "" "$program" cat "$folder/names" '/a\\b'
expect "a name with an escape" 0 "A" "" "$program" cat "$folder/names" '/\x61\x5Cb'
# An inode is found by its number too, which ls shows behind its name.
number=$("$program" ls "$folder/names" | sed -n 's/^a.x5cb //p')
expect "a file by its number" 0 "A" "" "$program" cat "$folder/names" "$number"
expect "the same between brackets" 0 "A" "" "$program" cat "$folder/names" "<$number>"
expect "the attributes by a number" 0 "$("$program" stat "$folder/names" '/a\\b')" "" "$program" stat "$folder/names" "<+0$number>"
expect "the root by its number" 0 "$("$program" ls "$folder/names")" "" "$program" ls "$folder/names" 1
expect "a number that no inode in use has" 2 "" "refused NotFound" "$program" stat "$folder/names" 9
expect "the bytes of a directory by its number" 2 "" "refused IsDirectory" "$program" cat "$folder/names" 1
expect "the names of a file by its number" 2 "" "refused NotDirectory" "$program" ls "$folder/names" "$number"
for word in "<$number" "$number>" 18446744073709551616; do
    expect "$word is neither a path nor a number" 2 "" "refused BadName" "$program" ls "$folder/names" "$word"
done
for name in '/a\' '/a\b' '/\x5' '/\xg0'; do
    expect "no escape in $name" 2 "" "in $name a backslash begins no escape; \\\\ stands for one, and \\x and two hexadecimal digits for a byte" \
        "$program" stat "$folder/names" "$name"
done

# A strict script ends at the first command that is refused.
expect "a strict script" 2 "ok${newline}refused Cpus" "" bash -c 'printf "time 1\nformat 65 8 1\ntime 2\n" | "$1" run --strict' bash "$program"
expect "the same, lenient" 0 "ok${newline}refused Cpus${newline}ok" "" bash -c 'printf "time 1\nformat 65 8 1\ntime 2\n" | "$1" run' bash "$program"

# Numbers that no region has.
expect "too few blocks" 2 "" "refused Length${newline}a region has 8 to 262144 blocks" "$program" mkfs "$folder/new" --blocks 7 --cpus 1 --tables 1
expect "65 CPUs" 2 "" "refused Cpus${newline}a region has 1 to 64 CPUs" "$program" mkfs "$folder/new" --blocks 8 --cpus 65 --tables 1
expect "no room for the tables" 2 "" \
    "refused Tables${newline}a CPU has 1 to 64 table blocks, and a region more blocks than 1 + CPUs + CPUs * table blocks" \
    "$program" mkfs "$folder/new" --blocks 8 --cpus 1 --tables 6

# A size in place of the numbers, which then suit it: those of the superblock, from its word 2 on.
numbers_of() {
    od -A n -t u8 -j 16 -N 24 "$1" | tr -s ' \n' ' ' | sed 's/^ //; s/ $//'
}
for row in "64M 4 16384 16" "32K 1 8 1" "1G 16 262144 64" "+65536 1 16 1" "16383K refused"; do
    read -r size wanted <<<"$row"
    if [ "$wanted" = refused ]; then
        "$program" mkfs "$folder/sized" --force --size "$size" 2>/dev/null
        same "a size of $size" 2 $?
    else
        expect "a size of $size" 0 "" "" "$program" mkfs "$folder/sized" --force --size "$size"
        same "the numbers of a size of $size" "$wanted" "$(numbers_of "$folder/sized")"
        expect "the region of a size of $size" 0 "no faults" "" "$program" check "$folder/sized" --only-faults
    fi
done
expect "a size and CPUs" 0 "" "" "$program" mkfs "$folder/sized" --force --size 64M --cpus 2
same "the numbers of a size and CPUs" "2 16384 32" "$(numbers_of "$folder/sized")"
expect "a size and tables" 0 "" "" "$program" mkfs "$folder/sized" --force --size 64M --tables 3
same "the numbers of a size and tables" "4 16384 3" "$(numbers_of "$folder/sized")"
# The layout of version 2 differs in the version alone: a new region has 0 where links come.
expect "the layout of version 1" 0 "" "" "$program" mkfs "$folder/sized" --force --size 1M --cpus 2 --layout 1
expect "the layout of version 2" 0 "" "" "$program" mkfs "$folder/grows" --size 1M --cpus 2 --layout 2
same "the layouts of both versions" "9 1 2" "$(cmp -l "$folder/sized" "$folder/grows" | tr -s ' ' | sed 's/^ //')"
expect "a region of version 2" 0 "region version 2 cpus 2 blocks 256 tables 1 state 0" "" bash -c '"$1" check "$2" | head -n 1' bash "$program" "$folder/grows"
expect "no region of version 2" 2 "" "refused Cpus${newline}a region has 1 to 64 CPUs" "$program" mkfs "$folder/new" --size 1M --cpus 65 --layout 2
"$program" mkfs "$folder/new" --size 1M --layout 3 >"$folder/said" 2>"$folder/why"
same "a layout of version 3" 2 $?
same "a layout of version 3: why" 1 "$(grep -c "^error: invalid value '3' for '--layout <layout>'" "$folder/why")"
expect "a size that is too small" 2 "" "refused Length${newline}a region has 8 to 262144 blocks" "$program" mkfs "$folder/new" --size 28K
for sizes in "" "--blocks 16" "--size 64M --blocks 16" "--size 65537" "--size 64MB"; do
    # shellcheck disable=SC2086
    "$program" mkfs "$folder/new" $sizes >"$folder/said" 2>"$folder/why"
    same "mkfs $sizes" 2 $?
    same "mkfs $sizes: why" 1 "$(grep -c "^error: either '--blocks <blocks>', '--cpus <cpus>' and '--tables <tables>' are needed, or '--size <size>'" "$folder/why")"
done

# Control characters are shown as escapes, and other letters as they are.
expect "a path with control characters" 2 "" "cannot read $folder/\\x1b[31mred\\x0a\\x7f\\xc2\\x9bö${newline}no such file" \
    "$program" check "$folder/"$'\e[31mred\n\x7f\xc2\x9bö'
expect "a path with letters of several bytes" 2 "" "cannot read $folder/ö©${newline}no such file" "$program" check "$folder/ö©"

# Standard input and output by `-`.
expect "an image on standard input" 0 "no faults" "" bash -c '"$1" check - --only-faults <"$2"' bash "$program" "$folder/region"
expect "an image from a pipe" 0 "no faults" "" bash -c 'cat "$2" | "$1" check - --only-faults' bash "$program" "$folder/region"
expect "a file named -" 2 "" "cannot read ./-${newline}no such file" "$program" check ./-
expect "a script on standard input" 0 "ok" "" bash -c 'echo "time 7" | "$1" run -' bash "$program"
expect "a region on standard output" 0 "32768" "ok" bash -c 'echo "format 1 8 1" | "$1" run --save - | wc -c' bash "$program"
expect "a drawing on standard output" 0 "<svg </svg>" "" bash -c '"$1" map "$2" --svg - | sed -n "1s/ .*/ /p; \$p" | tr -d "\n"' bash "$program" "$folder/region"
expect "a new image on standard output" 0 "same" "" bash -c '"$1" mkfs - --blocks 16 --cpus 1 --tables 1 | cmp - "$2" && echo same' bash "$program" "$folder/region"
expect "a clean image from input to output" 0 "same" "cleaned pages 0" \
    bash -c '"$1" clean - <"$2" | cmp - "$2" && echo same' bash "$program" "$folder/region"
word 40 2
expect "cleaning another state" 2 "" "refused S7${newline}its state is 2; 0 and 1 are taken" "$program" clean "$folder/changed"

# poked NAME AT VALUE: the image NAME, which is `chained` with this word there.
poked() {
    echo "poke $2 $3" | "$program" run --image "$folder/chained" --save "$folder/$1" >/dev/null 2>&1
}

# has_faults NAME COUNT: what a command that looks into the image says of its faults.
has_faults() {
    echo "$folder/$1 has faults, which nova check shows: $2"
}

# The table of CPU 1 goes on in the blocks 200 and 201, whose first inodes are 65 and 127. A link that leads nowhere cuts block
# 201 off, or both; one that leads back changes nothing else.
{
    printf 'format 2 256 1\nrecover 1\nupgrade\npoke 8208 819200\npoke 819200 823296\nrecover 1\nmkdir 1 /d\n'
    printf 'create 1 /d/f%d\n' {1..30}
    printf 'create 1 /d/b\n'
    printf 'create 1 /d/g%d\n' {1..30}
    printf 'create 1 /d/a\nwrite 1 /d/a 1234567 20001 65\nwrite 0 /d/a 0 5000 66\nwrite 1 /d/b 8191 2 68\nattr 0 /d/b 384 7 8\n'
} >"$folder/chained.nova"
"$program" run "$folder/chained.nova" --save "$folder/chained" >/dev/null
poked chain_cut 819200 819208
poked chain_ring 823296 819200
poked chain_gone 8208 1
expect "a region with a chain" 0 "no faults" "" "$program" check "$folder/chained" --only-faults
expect "inodes in a chain" 0 "a 127${newline}b 65" "" bash -c '"$1" ls "$2" /d | grep "^[ab] "' bash "$program" "$folder/chained"
a_stat="stat inode 127 file mode 420 owner 0 group 0 size 1254568 links 1 time 0"
b_stat="stat inode 65 file mode 384 owner 7 group 8 size 8193 links 1 time 0"
expect "an inode in the second block of a chain" 0 "$a_stat" "" "$program" stat "$folder/chained" /d/a
expect "the same by its number" 0 "$a_stat" "" "$program" stat "$folder/chained" 127
expect "an inode in the first block" 0 "$b_stat" "" "$program" stat "$folder/chained" /d/b
expect "the bytes of a file in a chain" 0 "$({ head -c 8191 /dev/zero; printf DD; } | cksum)" "" \
    bash -c '"$1" cat "$2" /d/b | cksum' bash "$program" "$folder/chained"
expect "a block of a chain" 0 "block 201 table 1 1" "" "$program" block "$folder/chained" 201
expect "a link that leads nowhere" 1 "fault H1 cpu 1 at 819200${newline}fault C1 inode 3 at 534464" "$with_sentences" \
    "$program" check "$folder/chain_cut" --only-faults
expect "what it cuts off" 2 "" "refused NotFound${newline}$(has_faults chain_cut 2)" "$program" cat "$folder/chain_cut" /d/a
expect "what it leaves" 0 "$b_stat" "$(has_faults chain_cut 2)" "$program" stat "$folder/chain_cut" /d/b
expect "a link in a sentence" 0 "H1 cpu 1 at 819200: block 200 has at offset 0 the word 819208; the link of a table's chain is 0, or the first byte of a data block" "" \
    bash -c '"$1" check "$2" --explain 2>/dev/null | grep "^H"' bash "$program" "$folder/chain_cut"
expect "a link back into its chain" 1 "fault H2 cpu 1 at 823296" "$with_sentences" "$program" check "$folder/chain_ring" --only-faults
expect "all is there before it" 0 "$a_stat" "$(has_faults chain_ring 1)" "$program" stat "$folder/chain_ring" /d/a
expect "a chain that is gone" 1 "inodes 32, directories 2, files 30, names 63, blocks in use 32, free 219, faults 33 (H1 1, C1 32)" "$with_sentences" \
    "$program" check "$folder/chain_gone" --summary

# Of a plain file the metadata alone are read, and the blocks of a file that is shown; a pipe is read whole. Both say the same.
{
    printf 'format 4 16384 4\nrecover 1\nmkdir 0 /d\ncreate 1 /d/a\ncreate 2 /d/b\nwrite 3 /d/a 1234567 2000001 65\nwrite 0 /d/a 0 5000 66\n'
    printf 'write 1 /d/b 0 1 67\nwrite 2 /d/b 8191 2 68\nsize 0 /d/b 20000\n'
} >"$folder/files.nova"
"$program" run "$folder/files.nova" --save "$folder/files" >/dev/null
# A sparse file is as long, and takes what its words take.
cp --sparse=always "$folder/files" "$folder/sparse"
for image in "$folder"/{files,sparse,chained,chain_cut,chain_ring,chain_gone} "$here/examples/ring.img"; do
    for asked in "ls /" "ls /d" "stat /d/a" "stat /none" "cat /d/a" "cat /d/b" "cat /d" "cat /d/none" "du /" "log /d/a" "log /none" \
        "tar /" "tar /d/a" "tar /none" "map" "check"; do
        # shellcheck disable=SC2086
        set -- $asked
        "$program" "$1" "$image" ${2+"$2"} >"$folder/by_file" 2>"$folder/by_file_error"
        status=$?
        # shellcheck disable=SC2016
        cat "$image" | "$program" "$1" /dev/stdin ${2+"$2"} >"$folder/by_pipe" 2>"$folder/by_pipe_error"
        [ "$status" = "${PIPESTATUS[1]}" ] && cmp -s "$folder/by_file" "$folder/by_pipe" &&
            [ "$(cat "$folder/by_file_error")" = "$(sed "s|/dev/stdin|$image|" "$folder/by_pipe_error")" ]
        holds "$asked of $image by a pipe and by its file" $?
    done
done

# An image of which a read ends early, or fails, is never answered about. `strace` makes one read of the system do so.
if command -v strace >/dev/null && strace -o "$folder/trace" true 2>/dev/null; then
    reads=$(strace -f -e trace=pread64 -o /dev/stdout "$program" cat "$folder/files" /d/a 2>/dev/null | grep -ac 'pread64(')
    # The loader reads by the same call before the program does.
    second=$(($(strace -f -e trace=pread64 -o /dev/stdout "$program" --version 2>/dev/null | grep -ac 'pread64(') + 2))
    for asked in "check" "ls /d" "stat /d/a" "map" "cat /d/a" "du /d" "log /d/a" "tar /"; do
        # shellcheck disable=SC2086
        set -- $asked
        expect "$asked of an image that ends early" 2 "" "cannot read $folder/files${newline}failed to fill whole buffer" \
            strace -f -qq -o "$folder/trace" -e inject=pread64:retval=0:when=$second "$program" "$1" "$folder/files" ${2+"$2"}
        expect "$asked of an image that can't be read in the middle" 2 "" "cannot read $folder/files${newline}Input/output error (os error 5)" \
            strace -f -qq -o "$folder/trace" -e inject=pread64:error=EIO:when=$second "$program" "$1" "$folder/files" ${2+"$2"}
    done
    strace -f -qq -o "$folder/trace" -e inject=pread64:error=EIO:when="$reads" "$program" cat "$folder/files" /d/a >/dev/null 2>"$folder/error"
    [ $? = 2 ] && [ "$(head -n 1 "$folder/error")" = "cannot read $folder/files" ]
    holds "a file whose last block can't be read" $?
    # Of an archive what was read before stands on the output, and no end.
    reads=$(strace -f -e trace=pread64 -o /dev/stdout "$program" tar "$folder/files" 2>/dev/null | grep -ac 'pread64(')
    strace -f -qq -o "$folder/trace" -e inject=pread64:error=EIO:when="$reads" "$program" tar "$folder/files" >"$folder/said" 2>"$folder/error"
    [ $? = 2 ] && [ "$(head -n 1 "$folder/error")" = "cannot read $folder/files" ] && ! tar -tf "$folder/said" >/dev/null 2>&1
    holds "an archive whose last block can't be read" $?
    # The program is stopped at its first read until the file was cut, or has a byte that was stored again as it was, and goes on then.
    # In each of its threads the read of that number stops it once more.
    for asked in "check" "ls /d" "stat /d/a" "map" "cat /d/a" "du /d" "log /d/a" "tar /"; do
        # shellcheck disable=SC2086
        set -- $asked
        for changed in cut stored; do
            cp "$folder/files" "$folder/changed"
            : >"$folder/trace"
            strace -f -qq -o "$folder/trace" -e trace=pread64 -e inject=pread64:signal=SIGSTOP:when=$((second - 1)) \
                "$program" "$1" "$folder/changed" ${2+"$2"} >"$folder/said" 2>"$folder/error" &
            until grep -q 'stopped by SIGSTOP' "$folder/trace" || ! kill -0 $! 2>/dev/null; do sleep 0.01; done
            if [ $changed = cut ]; then
                truncate -s 4096 "$folder/changed"
            else
                dd if="$folder/files" of="$folder/changed" bs=1 count=1 conv=notrunc status=none
            fi
            read -r traced _ <"$folder/trace"
            while kill -CONT "$traced" 2>/dev/null; do sleep 0.01; done
            wait $!
            [ $? = 2 ] && [ "$(head -n 1 "$folder/error")" = "cannot read $folder/changed" ] && [ ! -s "$folder/said" ] &&
                { [ $changed = cut ] || [ "$(sed -n 2p "$folder/error")" = "it was changed while it was read" ]; }
            holds "$asked of an image that is $changed while it is read: said $(tr '\n' ' ' <"$folder/error")" $?
        done
    done
else
    echo "left out: images that end early; there is no strace, or it may not trace"
fi

# The program is copied, since others may not reach the folder that it stands in.
cp "$program" "$folder/nova"
as_other=(setpriv --reuid 65534 --regid 65534 --clear-groups)
if "${as_other[@]}" test -x "$folder/nova" 2>/dev/null; then
    : >"$folder/closed"
    chmod 600 "$folder/closed"
    expect "a file without permission" 2 "" "cannot read $folder/closed${newline}no permission to read it" \
        "${as_other[@]}" "$folder/nova" check "$folder/closed"
else
    echo "left out: a file without permission; no other user can run the program"
fi

expect_script "a region that was cut" 2 "ok${newline}ok${newline}refused S1" "it has 65535 bytes; $lengths" \
    'format 1 16 1\ncut 65535\nrecover 1\n'
expect_script "a cut region and 65 workers" 2 "ok${newline}ok${newline}refused Workers" "" 'format 1 16 1\ncut 65535\nrecover 65\n'
expect_script "a number too few" 2 "ok${newline}bad line 3" "line 3: expected poke AT VALUE, $words" 'time 7\n\npoke 8\ntree\n'
expect_script "a space after a command" 2 "bad line 1" "line 1: expected tree, $words" 'tree \n'
expect_script "no command" 2 "bad line 1" \
    "line 1: expected time, format, recover, replay, poke, cut, list, stat, read, create, mkdir, write, size, attr, link, unlink, rmdir, rename, clean, upgrade, tree, free, faults, report, peek or stop" 'move 0 /a /b\n'
expect_script "a command with a letter left out" 2 "bad line 1" "line 1: no command has this name; the nearest is create CPU PATH" 'crate 0 /a\n'
expect_script "a command with two letters exchanged" 2 "bad line 1" "line 1: no command has this name; the nearest is list PATH" 'lsit /\n'
expect_script "a carriage return" 2 "bad line 1" \
    "line 1: it ends with a carriage return, byte 13; byte 10 alone ends a line" 'recover 1\r\n'
expect_script "a byte order mark" 2 "bad line 1" \
    "line 1: it begins with a byte order mark, the bytes 239, 187 and 191; a script has none" '\xef\xbb\xbftime 7\n'
expect_script "a byte of 256" 2 "bad line 1" "line 1: word 6 is above 255, the most that may stand there" 'write 0 /a 0 1 256\n'
expect_script "a count above a gibibyte" 2 "bad line 1" "line 1: word 5 is above 1073741824, the most that may stand there" 'write 0 /a 0 1073741825 7\n'
expect_script "an owner of 33 bits" 2 "bad line 1" "line 1: word 5 is above 4294967295, the most that may stand there" 'attr 0 /a 420 4294967296 0\n'
expect_script "a number of 65 bits" 2 "bad line 1" "line 1: word 2 is above 18446744073709551615, the most that may stand there" 'time 18446744073709551616\n'
expect_script "a number of 65 bits as a name" 0 "refused NotMounted" "" 'list 18446744073709551616\n'
expect_script "a large number and a word too many" 2 "bad line 1" "line 1: expected time T, $words" 'time 18446744073709551616 7\n'
expect_script "a line of 4097 bytes" 2 "bad line 1" "line 1: it has more than 4096 bytes" '#%4096d\n'

# A long read is printed as the file is read, in less memory than its text has.
before="ok${newline}recovered inodes 1 free 60 faults 0${newline}ok${newline}ok${newline}ok"
printf 'format 1 64 1\nrecover 1\ncreate 0 /f\nwrite 0 /f 131071 2 65\nsize 0 /f 268435456\n' >"$folder/writing"
{ cat "$folder/writing" && echo 'read /f 0 268435456'; } >"$folder/reading"
zeros() {
    head -c "$1" /dev/zero | tr '\0' 0
}
found=$(
    ulimit -v 400000
    "$program" run "$folder/reading" | cksum
)
same "a long read" "$({ printf '%s\ndata ' "$before" && zeros 262142 && printf 4141 && zeros 536608766 && echo; } | cksum)" "$found"

# in_so_much KIB SCRIPT: how many bytes it prints in so much memory, its status, and what it says.
in_so_much() {
    (
        ulimit -v "$1"
        exec "$program" run "$2" >"$folder/out" 2>"$folder/error"
    ) 2>/dev/null
    local status=$?
    echo "$(wc -c <"$folder/out") $status $(cat "$folder/error")"
}

# Where memory is wanted for a long read, nothing of its line is printed. The least memory is looked for, in steps of 64 KiB, in
# which the lines before it run.
{ cat "$folder/writing" && echo 'read /f 0 131073'; } >"$folder/reading"
none=0
least=6400
while [ $((least - none)) -gt 1 ]; do
    half=$(((none + least) / 2))
    case $(in_so_much $((64 * half)) "$folder/writing") in
        "48 0 ") least=$half ;;
        *) none=$half ;;
    esac
done
same "want of memory for a long read" "262200 0 ${newline}48 2 failed Memory" \
    "$(for more in 0 1 2 3 4 5 6 7 8 9 10 11 12; do in_so_much $((64 * (least + more))) "$folder/reading"; done | sort -u)"
close
