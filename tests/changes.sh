#!/usr/bin/env bash
# Changes an image by each of the commands mkdir, rm, rmdir, mv, ln, truncate, chmod, chown and put, and rolls journals back by
# recover. What is left is looked at by ls, stat, cat and check. What is refused leaves the image's bytes as they were.
#
#     tests/changes.sh [PROGRAM]     prints a line for each difference, and closes with 'N passed, M failed'
set -u
source "$(dirname "${BASH_SOURCE[0]}")/parts.sh" || exit 2
program=${1:-$built}
needs_program "$program"

room=$folder/room
mkdir "$room"
image=$room/image
host=$folder/host

# done_by WORD..: a command that says nothing, at time 7; the image has no fault behind it, and nothing else is in its folder.
done_by() {
    local command=$1
    shift
    told "$command $*" 0 "" "" "$command" "$image" "$@" --time 7
    "$program" check "$image" >"$folder/checked"
    same "$command $*: check" 0 "$?"
    same "$command $*: the folder" image "$(ls "$room")"
}

# refused NAME WORD..: a command that is refused so, and changes no byte of the image.
refused() {
    local name=$1 command=$2 before
    shift 2
    before=$(sha256sum <"$image")
    told "$command $*" 2 "" "refused $name" "$command" "$image" "$@"
    same "$command $*: the image" "$before" "$(sha256sum <"$image")"
    same "$command $*: the folder" image "$(ls "$room")"
}

# stands PATH NUMBERS: what stat says of a path.
stands() {
    same "stat $1" "stat $2" "$("$program" stat "$image" "$1")"
}

# lists PATH NAMES: the names of a directory.
lists() {
    same "ls $1" "$2" "$("$program" ls "$image" "$1" | sed 's/ [0-9]*$//' | paste -sd ' ')"
}

# holds_bytes PATH FILE: the bytes of a file are those of a file of the host.
holds_bytes() {
    "$program" cat "$image" "$1" >"$folder/bytes"
    cmp -s "$folder/bytes" "$2"
    holds "cat $1" $?
}

"$program" mkfs "$image" --blocks 64 --cpus 2 --tables 1 || exit 2

# Each command in turn.
done_by mkdir /d
stands /d "inode 2 dir mode 493 owner 0 group 0 size 0 links 1 time 7"
done_by mkdir /d/e --cpu 1
stands /d/e "inode 3 dir mode 493 owner 0 group 0 size 0 links 1 time 7"
printf 'hello\n' >"$host"
done_by put "$host" /d/a
stands /d/a "inode 4 file mode 420 owner 0 group 0 size 6 links 1 time 7"
holds_bytes /d/a "$host"
head -c 9000 /dev/urandom >"$host"
done_by put "$host" /d/a
stands /d/a "inode 4 file mode 420 owner 0 group 0 size 9000 links 1 time 7"
holds_bytes /d/a "$host"
printf 'less' >"$host"
done_by put "$host" /d/a
stands /d/a "inode 4 file mode 420 owner 0 group 0 size 4 links 1 time 7"
holds_bytes /d/a "$host"
done_by truncate 6 /d/a
printf 'less\0\0' >"$host"
holds_bytes /d/a "$host"
done_by truncate 2 /d/a
done_by truncate 4 /d/a
printf 'le\0\0' >"$host"
holds_bytes /d/a "$host"
: >"$host"
done_by put "$host" /empty
stands /empty "inode 6 file mode 420 owner 0 group 0 size 0 links 1 time 7"
done_by put "$host" /d/a
stands /d/a "inode 4 file mode 420 owner 0 group 0 size 0 links 1 time 7"
done_by chmod 4751 /d/a
stands /d/a "inode 4 file mode 2537 owner 0 group 0 size 0 links 1 time 7"
done_by chown 1000:100 /d/a
stands /d/a "inode 4 file mode 2537 owner 1000 group 100 size 0 links 1 time 7"
done_by chown 5 /d/a
stands /d/a "inode 4 file mode 2537 owner 5 group 100 size 0 links 1 time 7"
done_by chmod 600 /d/a
stands /d/a "inode 4 file mode 384 owner 5 group 100 size 0 links 1 time 7"
done_by ln /d/a /b
stands /b "inode 4 file mode 384 owner 5 group 100 size 0 links 2 time 7"
done_by mv /b /d/e/c
lists / "d empty"
lists /d "a e"
lists /d/e c
done_by mv /d/e /f
lists /f c
done_by rm /d/a
stands /f/c "inode 4 file mode 384 owner 5 group 100 size 0 links 1 time 7"
done_by rm /f/c
done_by rmdir /f
done_by rm /empty
lists / d
done_by mkdir '/\x0a\\'
lists / '\x0a\x5c d'

# The clock's time.
before=$(date +%s)
"$program" mkdir "$image" /now
after=$(date +%s)
time=$("$program" stat "$image" /now | sed 's/.* time //')
[ "$before" -le "$time" ] && [ "$time" -le "$after" ]
holds "the clock's time" $?

# What is refused changes nothing.
printf 'bytes' >"$host"
done_by put "$host" /a
refused Exists mkdir /d
refused BadName mkdir d
refused NotFound mkdir /none/d
refused NotDirectory mkdir /a/d
refused BadCpu mkdir /e --cpu 2
refused NotFound rm /none
refused IsDirectory rm /d
refused NotFound rmdir /none
refused NotDirectory rmdir /a
"$program" mkdir "$image" /d/e
refused NotEmpty rmdir /d
refused Exists mv /a /d
refused NotFound mv /none /e
refused IntoItself mv /d /d/e/f
refused IsDirectory ln /d /e
refused Exists ln /a /d
refused NotFound truncate 1 /none
refused IsDirectory truncate 1 /d
refused TooLarge truncate 1073741825 /a
refused NotFound chmod 600 /none
refused NotFound chown 1 /none
refused IsDirectory put "$host" /d
refused NotFound put "$host" /none/a
head -c 300000 /dev/zero >"$folder/large"
refused NoSpace put "$folder/large" /large
refused NoSpace put "$folder/large" /a
holds_bytes /a "$host"
truncate -s 1073741825 "$folder/huge"
refused TooLarge put "$folder/huge" /huge

# Words that can't be read.
sum=$(sha256sum <"$image")
for words in "chmod IMAGE 8 /a" "chmod IMAGE 10000 /a" "chmod IMAGE u+x /a" "chown IMAGE root /a" "chown IMAGE 1: /a" \
    "chown IMAGE 4294967296 /a" "truncate IMAGE 1K /a"; do
    # shellcheck disable=SC2086
    "$program" ${words/IMAGE/$image} >"$folder/out" 2>"$folder/err"
    same "$words: status" 2 $?
    same "$words: errors" "error: a size is a number of bytes" "$(head -n 1 "$folder/err" | cut -d, -f1)"
done
"$program" put "$image" "$folder/nothing" /a >"$folder/out" 2>"$folder/err"
same "put of no file: status" 2 $?
same "put of no file: errors" "cannot read $folder/nothing
no such file" "$(cat "$folder/err")"
same "words that can't be read: the image" "$sum" "$(sha256sum <"$image")"

# A file of the host on standard input.
printf 'piped' >"$host"
"$program" put "$image" - /piped --time 7 <"$host"
same "put of standard input: status" 0 $?
holds_bytes /piped "$host"
"$program" rm "$image" /piped
sum=$(sha256sum <"$image")

# An image on standard input is written to standard output.
"$program" mkdir - /piped --time 7 <"$image" >"$folder/piped"
same "an image on standard input: status" 0 $?
same "an image on standard input: ls" "/piped" "/$("$program" ls "$folder/piped" | sed -n 's/^\(piped\) .*/\1/p')"
same "an image on standard input: the image" "$sum" "$(sha256sum <"$image")"

# One with faults is refused, and one whose superblock isn't accepted.
cp "$image" "$folder/kept"
printf 'poke 16640 9\n' | "$program" run --image "$image" --save "$image" >"$folder/out"
refused ReadOnly mkdir /new
refused ReadOnly put "$host" /new
printf cut! >"$image"
told "mkdir of no region" 2 "" "refused S1
it has 4 bytes; a region has a multiple of 4096, from 32768 to 1073741824" mkdir "$image" /new

# Records are told in the order of CPUs and from the oldest, and rolled back. After record 251 comes 0.
cp "$folder/kept" "$image"
tail_word=$("$program" run --image "$image" <<<"peek 12440" | tail -n 1)
printf '%s\n' "poke 4096 251" "poke 4104 1" "poke 8176 12416" "poke 8184 1" "poke 4160 12440" "poke 4168 ${tail_word##* }" \
    "poke 8192 3" "poke 8200 4" "poke 8304 40000" "poke 8312 5" \
    "poke 12416 0" "poke 12440 77" >"$folder/pending"
"$program" run --image "$image" --save "$image" "$folder/pending" >"$folder/out"
sum=$(sha256sum <"$image")
pending="pending 0 251: address 12416, valid word of inode 2, is 0, was 1
pending 0 0: address 12440, tail of inode 2, is 77, was ${tail_word##* }
pending 1 3: address 40000, no word of a slot, was 5
pending records 3"
told "recover --dry-run" 0 "$pending" "" recover "$image" --dry-run
same "recover --dry-run: the image" "$sum" "$(sha256sum <"$image")"
"$program" check "$image" --journal >"$folder/checked" 2>"$folder/err"
same "check --journal: status" 1 $?
same "check --journal: the records" "$pending" "$(head -n 4 "$folder/checked")"
same "check --journal: the report" "$("$program" check "$image" 2>"$folder/err")" "$(tail -n +5 "$folder/checked")"
same "check --journal: the image" "$sum" "$(sha256sum <"$image")"
told "recover" 0 "$pending" "" recover "$image"
same "recover: the folder" image "$(ls "$room")"
"$program" check "$image" >"$folder/checked"
same "recover: check" 0 $?
same "recover: ls" "$("$program" ls "$folder/kept")" "$("$program" ls "$image")"
sum=$(sha256sum <"$image")
told "recover again" 0 "pending records 0" "" recover "$image"
same "recover again: the image" "$sum" "$(sha256sum <"$image")"
printf cut! >"$image"
told "recover of no region" 2 "" "refused S1
it has 4 bytes; a region has a multiple of 4096, from 32768 to 1073741824" recover "$image"
told "recover --dry-run of no region" 2 "" "refused S1
it has 4 bytes; a region has a multiple of 4096, from 32768 to 1073741824" recover "$image" --dry-run
told "check --journal of no region" 2 "refused S1" "it has 4 bytes; a region has a multiple of 4096, from 32768 to 1073741824" check "$image" --journal

close
