#!/usr/bin/env bash
# Tries that `nova mkfs`, `nova run --save`, `nova shell`, `nova clean` and `nova map --svg` write a file whole or leave what was there. So it
# is on a full disk, past a limit of the system, where the last step is refused, in a folder that can't be written, on what is
# no file, on what the command reads, over what was changed meanwhile, by several runs at once, and with a stop at each system
# call that writes.
#
#     tests/save-files.sh [PROGRAM]     prints a line for each difference, and closes with 'N passed, M failed'
#
# What needs strace, a file system of its own or another user is left out where it can't be had, and a line says so.
set -u
source "$(dirname "${BASH_SOURCE[0]}")/parts.sh" || exit 2
program=${1:-$built}
needs_program "$program"
disk=
trap '[ -z "$disk" ] || umount "$disk"; chmod -R u+w "$folder"; rm -rf "$folder"' EXIT
chmod 755 "$folder"
# Other users can run this one.
install -m 755 "$program" "$folder/nova"
program=$folder/nova

sum() {
    sha256sum <"$1"
}

# Makes a folder with the image `image`, of `hello`, and keeps its sum; a script that formats a larger region is beside it.
room=
old=
begin() {
    room=$folder/room
    rm -rf "$room"
    mkdir "$room"
    "$program" mkfs "$room/image" --blocks 16 --cpus 1 --tables 1
    "$program" run "$here/examples/hello.nova" --image "$room/image" --save "$room/image" >/dev/null
    old=$(sum "$room/image")
}

# unchanged NAME: the image is as it was, and nothing else is in its folder.
unchanged() {
    same "$1: the image" "$old" "$(sum "$room/image")"
    same "$1: the folder" image "$(ls "$room")"
}

printf cut! >"$folder/short"
grown=$folder/grown.nova
printf 'format 1 64 1\n' >"$grown"

# An image is made, changed and shown.
begin
same "cat" hi "$("$program" cat "$room/image" /hello)"
same "ls" "hello 2" "$("$program" ls "$room/image")"
told "no file is written without --save" 0 ok "" run "$grown" --image "$room/image"
unchanged "no file is written without --save"
told "a script's own region is saved by force" 0 ok "" run "$grown" --force --save "$room/image"
same "a script's own region is saved: its length" 262144 "$(stat -c %s "$room/image")"
same "a script's own region is saved: the folder" image "$(ls "$room")"

# A drawing has the cells of the text, and takes the place of a file that is there by force.
begin
echo old >"$folder/drawing"
told "map" 0 "SSSLLD..........
blocks in a cell 1: . free, S system, D data, L log, ! doubled" "" map "$room/image" --svg "$folder/drawing" --force
same "map: the drawing" "3 #7f7f7f 2 #59a14f 1 #4c8ed9 10 #e6e6e6" "$(sed -n 's/^<rect .*fill="\([^"]*\)" fill-opacity="1".*/\1/p' "$folder/drawing" | uniq -c | xargs)"
same "map: the number of the first block" "0" "$(sed -n 's/^<text .*text-anchor.*>\(.*\)<.*/\1/p' "$folder/drawing")"
same "map: the title of a cell" "blocks 3 to 3: 1 of logs, 0 free" "$(sed -n 's/.*<title>\(blocks 3 .*\)<.title>.*/\1/p' "$folder/drawing")"
"$program" mkfs "$folder/large" --blocks 4096 --cpus 1 --tables 1
"$program" map "$folder/large" --svg "$folder/drawing" --force >/dev/null
same "map of a large image: few of many blocks" 'fill="#59a14f" fill-opacity=".40"><title>blocks 0 to 3: 1 of logs, 3 of the system, 0 free' "$(sed -n 's/^<rect .*\(fill=.*\)<.title>.*/\1/p' "$folder/drawing" | head -n 1)"
same "map of a large image: the first blocks of rows" "$(seq 0 256 3840 | xargs)" "$(sed -n 's/^<text .*text-anchor.*>\(.*\)<.*/\1/p' "$folder/drawing" | xargs)"
told "map of no region" 2 "" "refused S1
it has 4 bytes; a region has a multiple of 4096, from 32768 to 1073741824" map "$folder/short" --svg "$folder/none"
same "map of no region: the drawing" "" "$(ls "$folder/none" 2>/dev/null)"
unchanged "map"

# Pages go out of logs that can do without them. The image is written where one went, and only there.
{
    printf 'recover 1\ncreate 0 /a\n'
    yes 'attr 0 /a 420 0 0' | head -n 127
} >"$folder/overwriting.nova"

# overwritten BLOCKS IMAGE: makes an image in which the log of /a has a page that it can do without.
overwritten() {
    "$program" mkfs "$2" --force --blocks "$1" --cpus 1 --tables 1
    "$program" run "$here/examples/hello.nova" --image "$2" --save "$2" >/dev/null
    "$program" run "$folder/overwriting.nova" --image "$2" --save "$2" >/dev/null
}

# Makes a folder with such an image, and keeps its sum.
begin_overwritten() {
    begin
    overwritten 16 "$room/image"
    old=$(sum "$room/image")
}

begin_overwritten
listed=$("$program" ls "$room/image")
free=$("$program" check "$room/image" | grep '^free')
told "clean of a log that needs its pages" 0 "cleaned pages 0" "" clean "$room/image" /hello
told "clean of what isn't there" 2 "" "refused NotFound" clean "$room/image" /none
told "clean of no directory" 2 "" "refused NotDirectory" clean "$room/image" /hello/a
told "clean of no path" 2 "" "refused BadName" clean "$room/image" a
unchanged "clean of other logs"
told "clean of a log" 0 "cleaned pages 1" "" clean "$room/image" /a
same "clean of a log: the folder" image "$(ls "$room")"
same "clean of a log: ls" "$listed" "$("$program" ls "$room/image")"
"$program" check "$room/image" >"$folder/checked"
same "clean of a log: check" 0 $?
same "clean of a log: the free blocks" "free 0 8-15, then free 0 6 8-15" "$free, then $(grep '^free' "$folder/checked")"
cleaned=$(sum "$room/image")
begin_overwritten
told "clean" 0 "cleaned pages 1" "" clean "$room/image"
same "clean: the image" "$cleaned" "$(sum "$room/image")"
touch -d @1000000000 "$room/image"
old=$cleaned
told "clean again" 0 "cleaned pages 0" "" clean "$room/image"
same "clean again: the file's time" 1000000000 "$(stat -c %Y "$room/image")"
unchanged "clean again"
cp "$here/examples/ring.img" "$room/image"
old=$(sum "$room/image")
told "clean of an image with faults" 2 "" "refused ReadOnly" clean "$room/image"
unchanged "clean of an image with faults"
told "clean of an image with faults by a path" 2 "" "refused ReadOnly" clean "$room/image" a
unchanged "clean of an image with faults by a path"
told "clean of no region" 2 "" "refused S1
it has 4 bytes; a region has a multiple of 4096, from 32768 to 1073741824" clean "$folder/short"
told "clean of what isn't there" 2 "" "cannot read $room/none
no such file" clean "$room/none"

# What is there stays.
begin
told "mkfs over a file" 2 "" "cannot write $room/image: it is there already; --force replaces it" mkfs "$room/image" --blocks 8 --cpus 1 --tables 1
unchanged "mkfs over a file"
told "mkfs of no region" 2 "" "refused Cpus
a region has 1 to 64 CPUs" mkfs "$room/image" --force --blocks 8 --cpus 65 --tables 1
unchanged "mkfs of no region"
told "mkfs of no length" 2 "" "refused Length
a region has 8 to 262144 blocks" mkfs "$room/other" --blocks 7 --cpus 65 --tables 0
unchanged "mkfs of no length"
told "saving no region" 2 "" "cannot write $room/image: there is no region" run /dev/null --force --save "$room/image"
unchanged "saving no region"
told "an image that isn't there" 2 "" "cannot read $room/none
no such file" run "$grown" --image "$room/none" --save "$room/image"
unchanged "an image that isn't there"
told "a script that isn't there" 2 "" "cannot read $room/none
no such file" run "$room/none" --save "$room/image"
unchanged "a script that isn't there"
chmod 640 "$room/image"
told "mkfs --force" 0 "" "" mkfs "$room/image" --force --blocks 8 --cpus 1 --tables 1
same "mkfs --force: length and permissions" "32768 640" "$(stat -c '%s %a' "$room/image")"

# Nothing but a file is replaced.
begin
mkdir "$room/folder"
mkfifo "$room/pipe"
ln -s none "$room/link"
for target in folder pipe; do
    told "mkfs --force over a $target" 2 "" "cannot write $room/$target: it isn't a file" mkfs "$room/$target" --force --blocks 8 --cpus 1 --tables 1
    told "saving over a $target" 2 "" "cannot write $room/$target: it isn't a file" run "$grown" --save "$room/$target"
done
told "mkfs over a link" 2 "" "cannot write $room/link: it is there already; --force replaces it" mkfs "$room/link" --blocks 8 --cpus 1 --tables 1
same "nothing but a file is replaced" "folder image link pipe" "$(cd "$room" && echo *)"
rm -r "${room:?}/folder" "$room/pipe" "$room/link"
ln "$room/image" "$room/second"
ln -s image "$room/link"
told "saving over a link" 2 "" "cannot write $room/link: it is there already; --force replaces it" run "$grown" --save "$room/link"
told "saving over a link by force" 0 ok "" run "$grown" --force --save "$room/link"
same "saving over a link: what it led to" "$old" "$(sum "$room/image")"
told "mkfs --force over a file with two names" 0 "" "" mkfs "$room/image" --force --blocks 8 --cpus 1 --tables 1
same "mkfs --force over a file with two names: the other" "$old" "$(sum "$room/second")"

# A limit of the system, once told and once by a signal.
begin
(
    trap '' XFSZ
    ulimit -f 128
    "$program" run "$grown" --force --save "$room/image" >/dev/null 2>"$folder/err"
)
same "past a limit: status" 2 $?
same "past a limit: errors" "cannot write $room/image: File too large (os error 27)" "$(cat "$folder/err")"
unchanged "past a limit"
(
    ulimit -c 0
    ulimit -f 128
    "$program" run "$grown" --force --save "$room/image"
) >/dev/null 2>&1
same "killed at a limit: the image" "$old" "$(sum "$room/image")"

# A folder that can't be written.
begin
chmod 555 "$room"
as_other=()
if [ "$(id -u)" = 0 ]; then
    as_other=(setpriv --reuid 65534 --regid 65534 --clear-groups)
fi
if "${as_other[@]}" test -x "$program" 2>/dev/null; then
    for words in "run $grown --force --save" "mkfs --blocks 8 --cpus 1 --tables 1 --force"; do
        # shellcheck disable=SC2086
        "${as_other[@]}" "$program" $words "$room/image" >/dev/null 2>"$folder/err"
        same "in a folder that can't be written: status" 2 $?
        same "in a folder that can't be written: errors" "cannot write $room/image: no permission to write there" "$(cat "$folder/err")"
        unchanged "in a folder that can't be written"
    done
else
    echo "left out: a folder that can't be written; no other user can run the program"
fi
chmod 755 "$room"
told "in no folder" 2 "" "cannot write $room/none/image: no such directory" run "$grown" --save "$room/none/image"
unchanged "in no folder"

# A full disk.
mkdir "$folder/disk"
if mount -t tmpfs -o size=128k none "$folder/disk" 2>/dev/null; then
    disk=$folder/disk
    "$program" mkfs "$disk/image" --blocks 16 --cpus 1 --tables 1
    old=$(sum "$disk/image")
    room=$disk
    told "on a full disk" 2 ok "cannot write $disk/image: the disk is full" run "$grown" --force --save "$disk/image"
    unchanged "on a full disk"
    told "mkfs on a full disk" 2 "" "cannot write $disk/image: the disk is full" mkfs "$disk/image" --force --blocks 64 --cpus 1 --tables 1
    unchanged "mkfs on a full disk"
    told "a new image on a full disk" 2 "" "cannot write $disk/other: the disk is full" mkfs "$disk/other" --blocks 64 --cpus 1 --tables 1
    unchanged "a new image on a full disk"
    overwritten 24 "$folder/larger"
    cp "$folder/larger" "$disk/image"
    old=$(sum "$disk/image")
    told "clean on a full disk" 2 "" "cannot write $disk/image: the disk is full" clean "$disk/image"
    unchanged "clean on a full disk"
else
    echo "left out: a full disk; no file system can be mounted"
fi

# No command puts a file in the place of one that it reads, by whatever name; nothing is done then.
begin
ln "$room/image" "$room/second"
ln -s image "$room/link"
for target in image second link; do
    for force in "" --force; do
        # shellcheck disable=SC2086
        told "a drawing over its image, $target $force" 2 "" "cannot write $room/$target: this command reads it; give another name" map "$room/image" --svg "$room/$target" $force
    done
done
same "a drawing over its image" "$old$old" "$(sum "$room/image")$(sum "$room/second")"
cp "$grown" "$room/script"
script=$(sum "$room/script")
told "saving over the script" 2 "" "cannot write $room/script: this command reads it; give another name" run "$room/script" --save "$room/script" --force
"$program" run --save "$room/script" --force <"$room/script" >"$folder/out" 2>"$folder/err"
same "saving over a script on standard input: status" 2 $?
same "saving over a script on standard input: errors" "cannot write $room/script: this command reads it; give another name" "$(cat "$folder/err")"
same "saving over the script: nothing is done" "$script" "$(cat "$folder/out")$(sum "$room/script")"
same "no command replaces what it reads" "image link script second" "$(cd "$room" && echo *)"

# Another file is replaced by force alone, and the image that the region comes from without.
begin
echo old >"$room/other"
told "saving over another file" 2 "" "cannot write $room/other: it is there already; --force replaces it" run "$grown" --save "$room/other"
told "a drawing over another file" 2 "" "cannot write $room/other: it is there already; --force replaces it" map "$room/image" --svg "$room/other"
same "another file" old "$(cat "$room/other")"
told "saving over the image" 0 ok "" run "$grown" --image "$room/image" --save "$room/image"
same "saving over the image: its length" 262144 "$(stat -c %s "$room/image")"

# waiting SCRIPT WORD..: a run whose script ends only when `go_on` is called.
waiting() {
    local script=$1
    shift
    rm -f "$folder/pipe" "$folder/first"
    mkfifo "$folder/pipe"
    "$program" run "$@" <"$folder/pipe" >"$folder/first" 2>"$folder/first-err" &
    first=$!
    exec 9>"$folder/pipe"
    echo "$script" >&9
    while [ ! -s "$folder/first" ] && kill -0 "$first" 2>/dev/null; do sleep 0.01; done
}
go_on() {
    exec 9>&-
    wait "$first"
}

# A shell writes its image where a line asks for that, as often as one does, and another file over none.
# typed LINES WORD..: a shell on the image of the room, whose lines printf reads.
typed() {
    local lines=$1
    shift
    # shellcheck disable=SC2059
    printf "$lines" | "$program" shell "$room/image" "$@" >"$folder/out" 2>"$folder/err"
}
begin
typed 'list /\nquit\nmkdir 0 /d\n'
same "shell: status" 0 $?
same "shell: output" "recovered inodes 2 free 10 faults 0
hello 2" "$(cat "$folder/out")"
same "shell: no prompt, and nothing else among the errors" "" "$(cat "$folder/err")"
typed 'mkdir 0 /d\n'
unchanged "a shell that saves nothing"
typed 'move /a\nmkdir 0 /d\nlist /\nmkdir 0 /d\n'
same "a slip in a shell: status" 0 $?
same "a slip in a shell: output" "recovered inodes 2 free 10 faults 0
bad line 1
ok
d 3
hello 2
refused Exists" "$(cat "$folder/out")"
same "a slip in a shell: errors" "line 1: expected" "$(grep -o '^line 1: expected' "$folder/err")"
unchanged "a slip in a shell"
typed 'help\n'
same "help in a shell" "list PATH save PATH" "$(sed -n '2p;$p' "$folder/out" | xargs)"
typed 'mkdir 0 /d\nsave\nmkdir 0 /e\nsave\nmkdir 0 /f\n'
same "saving in a shell: status" 0 $?
same "saving in a shell: output" "recovered inodes 2 free 10 faults 0 ok ok ok ok ok" "$(xargs <"$folder/out")"
same "saving in a shell: errors" "" "$(cat "$folder/err")"
same "saving in a shell: what is there" "d 3 e 4 hello 2" "$("$program" ls "$room/image" | xargs)"
same "saving in a shell: the folder" image "$(ls "$room")"
if command -v script >/dev/null; then
    same "prompts at a terminal" 2 "$(printf 'list /\nquit\n' | script -qec "$program shell $room/image" /dev/null | grep -o 'nova> ' | wc -l)"
else
    echo "left out: prompts at a terminal; script isn't installed"
fi
begin
echo old >"$room/other"
typed "mkdir 0 /d\nsave $room/other\nsave $room/new\nsave $room/none/new\nsave -\nsave $room\n"
same "saving in other files from a shell: output" "recovered inodes 2 free 10 faults 0 ok not saved ok not saved not saved not saved" "$(xargs <"$folder/out")"
same "saving in other files from a shell: errors" "cannot write $room/other: it is there already; --force replaces it
cannot write $room/none/new: no such directory
cannot write -: it isn't a file
cannot write $room: it isn't a file" "$(cat "$folder/err")"
same "saving in other files from a shell: the image" "$old" "$(sum "$room/image")"
same "saving in other files from a shell: the other" old "$(cat "$room/other")"
same "saving in other files from a shell: the new one" "d 3 hello 2" "$("$program" ls "$room/new" | xargs)"
typed "save $room/other\n" --force
same "saving in another file by force" "$old" "$(sum "$room/other")"
ln -s image "$room/link"
typed "mkdir 0 /d\nsave $room/./image\nsave $room/link\n"
same "saving in the image by another name" "recovered inodes 2 free 10 faults 0 ok ok ok" "$(xargs <"$folder/out")"
same "saving in the image by another name: what is there" "d 3 hello 2" "$("$program" ls "$room/image" | xargs)"
same "saving in the image by another name: a link" image "$(readlink "$room/link")"
typed "$(printf 'x%.0s' {1..4097})\nmkdir 0 /e\n"
same "a long line in a shell" "2 bad line 1" "$? $(tail -n 1 "$folder/out")"
"$program" shell "$folder/short" >"$folder/out" 2>"$folder/err" </dev/null
same "a shell on no region" "2 refused S1, it has 4 bytes; a region has a multiple of 4096, from 32768 to 1073741824" "$? $(cat "$folder/out"), $(cat "$folder/err")"
"$program" shell "$room/none" >"$folder/out" 2>"$folder/err" </dev/null
same "a shell on no file" "2  cannot read $room/none
no such file" "$? $(cat "$folder/out") $(cat "$folder/err")"

# A shell holds its image behind a save too.
begin
rm -f "$folder/pipe" "$folder/first"
mkfifo "$folder/pipe"
"$program" shell "$room/image" <"$folder/pipe" >"$folder/first" 2>"$folder/first-err" &
first=$!
exec 9>"$folder/pipe"
printf 'mkdir 0 /d\nsave\n' >&9
while [ "$(grep -cx ok "$folder/first")" != 2 ] && kill -0 "$first" 2>/dev/null; do sleep 0.01; done
told "an image in use behind a save" 2 "" "cannot write $room/image: in use by another run, which is to replace it" mkfs "$room/image" --force --blocks 8 --cpus 1 --tables 1
printf 'mkdir 0 /e\nsave\n' >&9
go_on
same "an image in use behind a save: status of the shell" 0 $?
same "an image in use behind a save: errors of the shell" "" "$(cat "$folder/first-err")"
same "an image in use behind a save: what is there" "d 3 e 4 hello 2" "$("$program" ls "$room/image" | xargs)"

# No other run gets in between two saves of a shell.
begin
rm -f "$folder/pipe" "$folder/first" "$folder/enough"
mkfifo "$folder/pipe"
"$program" shell "$room/image" <"$folder/pipe" >"$folder/first" 2>"$folder/first-err" &
first=$!
exec 9>"$folder/pipe"
printf 'mkdir 0 /d\n' >&9
until grep -qx ok "$folder/first" || ! kill -0 "$first" 2>/dev/null; do sleep 0.01; done
(until [ -e "$folder/enough" ]; do "$program" mkfs "$room/image" --force --blocks 8 --cpus 1 --tables 1 2>/dev/null && echo got in; done) >"$folder/others" &
others=$!
yes save | head -n 40 >&9
while [ "$(grep -cx ok "$folder/first")" != 41 ] && kill -0 "$first" 2>/dev/null; do sleep 0.01; done
: >"$folder/enough"
wait "$others"
go_on
same "a shell that saves often: status" 0 $?
same "a shell that saves often: output" "recovered inodes 2 free 10 faults 0 $(yes ok | head -n 41 | xargs)" "$(xargs <"$folder/first")"
same "a shell that saves often: who got in" "" "$(cat "$folder/others")"
same "a shell that saves often: what is there" "d 3 hello 2" "$("$program" ls "$room/image" | xargs)"

# Of two runs that are to replace one image the second is refused, by whatever name.
begin
ln -s image "$room/link"
waiting 'recover 1' --image "$room/image" --save "$room/image"
told "an image in use" 2 "" "cannot write $room/image: in use by another run, which is to replace it" run "$grown" --image "$room/image" --save "$room/image"
told "an image in use by a link" 2 "" "cannot write $room/link: in use by another run, which is to replace it" run "$grown" --force --save "$room/link"
told "mkfs of an image in use" 2 "" "cannot write $room/image: in use by another run, which is to replace it" mkfs "$room/image" --force --blocks 8 --cpus 1 --tables 1
told "a shell on an image in use" 2 "" "cannot write $room/image: in use by another run, which is to replace it" shell "$room/image"
told "clean of an image in use" 2 """" "cannot write $room/image: in use by another run, which is to replace it" clean "$room/image"
told "an image in use is read" 0 "hello 2" "" ls "$room/image"
echo 'mkdir 0 /d' >&9
go_on
same "an image in use: status of the first" 0 $?
same "an image in use: what the first saved" "d 3 hello 2" "$("$program" ls "$room/image" | xargs)"
rm "$room/link"
same "an image in use: the folder" image "$(ls "$room")"

# Eight at once, each with a name of its own: as many names are there as runs ended with status 0.
begin
for number in 1 2 3 4 5 6 7 8; do
    printf 'recover 1\ncreate 0 /n%d\n' $number >"$folder/s$number"
    (
        "$program" run "$folder/s$number" --image "$room/image" --save "$room/image" >/dev/null 2>"$folder/e$number"
        echo $? >"$folder/status$number"
    ) &
done
wait
ended=$(cat "$folder"/status? | grep -cx 0)
same "eight at once: those that are done" "$ended" "$("$program" ls "$room/image" | grep -c '^n')"
same "eight at once: the others" "$((8 - ended))" "$(cat "$folder"/e? | grep -cE 'in use|changed meanwhile')"
same "eight at once: one is done" 1 "$((ended > 0))"

# An image that is changed meanwhile is not replaced, and the new one stays beside it.
begin
waiting 'format 1 64 1' --image "$room/image" --save "$room/image"
cp "$folder/drawing" "$room/moved"
mv "$room/moved" "$room/image"
go_on
same "an image is replaced meanwhile: status" 2 $?
same "an image is replaced meanwhile: errors" "cannot write $room/image: changed meanwhile; the new file is $room/image.new-0" "$(cat "$folder/first-err")"
same "an image is replaced meanwhile: what is there" "$(sum "$folder/drawing")" "$(sum "$room/image")"
same "an image is replaced meanwhile: the new one" 262144 "$(stat -c %s "$room/image.new-0")"
begin
waiting 'format 1 64 1' --image "$room/image" --save "$room/image"
printf x | dd of="$room/image" bs=1 conv=notrunc status=none
changed=$(sum "$room/image")
go_on
same "an image is written to meanwhile" "cannot write $room/image: changed meanwhile; the new file is $room/image.new-0" "$(cat "$folder/first-err")"
same "an image is written to meanwhile: what is there" "$changed" "$(sum "$room/image")"
begin
waiting 'format 1 64 1' --save "$room/new"
echo other >"$room/new"
go_on
same "a file comes meanwhile" "cannot write $room/new: changed meanwhile; the new file is $room/new.new-0" "$(cat "$folder/first-err")"
same "a file comes meanwhile: what is there" other "$(cat "$room/new")"

# What a killed run has left is named by the next one, which goes round it, and one that is empty isn't.
begin
echo left >"$room/image.new-0"
: >"$room/other.new-0"
told "a file is left" 0 ok "$room/image.new-0 was left by a run that was stopped; it can be removed" run "$grown" --image "$room/image" --save "$room/image"
told "an empty file is left" 0 ok "" run "$grown" --save "$room/other"
same "a file is left: the folder" "image image.new-0 other other.new-0" "$(cd "$room" && echo *)"
begin_overwritten
echo left >"$room/image.new-0"
told "a file is left where an image is cleaned" 0 "cleaned pages 1" "$room/image.new-0 was left by a run that was stopped; it can be removed" clean "$room/image"

# Names of up to 255 bytes, also where a letter of several bytes would be cut.
begin
for longest in "$(printf 'a%.0s' {1..255})" "$(printf 'a%.0s' {1..246})$(printf '\303\251%.0s' {1..4})"; do
    told "a name of ${#longest} letters" 0 ok "" run "$grown" --save "$room/$longest"
    told "a name of ${#longest} letters again" 0 ok "" run "$grown" --image "$room/$longest" --save "$room/$longest"
    same "a name of ${#longest} letters: its length" 262144 "$(stat -c %s "$room/$longest")"
    rm "$room/$longest"
done
unchanged "names of 255 bytes"

# Refusals stand among the errors, so that none ends in what is redirected.
begin
told "cat of nothing" 2 "" "refused NotFound" cat "$room/image" /none
told "ls of a file" 2 "" "refused NotDirectory" ls "$room/image" /hello
told "stat of nothing" 2 "" "refused NotFound" stat "$room/image" /none
told "cat of a directory" 2 "" "refused IsDirectory" cat "$room/image" /
told "cat of no region" 2 "" "refused S1
it has 4 bytes; a region has a multiple of 4096, from 32768 to 1073741824" cat "$folder/short" /a

# Each system call that writes is refused, and then the program is killed there. $new is what it would have written.
begin
"$program" run "$grown" --save "$folder/new" >/dev/null
new=$(sum "$folder/new")
if strace -o /dev/null true 2>/dev/null; then
    save=(run "$grown" --force --save "$room/image")
    opened=$(strace -e trace=openat "$program" "${save[@]}" 2>&1 >/dev/null | grep -n 'image.new-' | cut -d: -f1)
    # The first is opened before the script runs, to see whether it can be.
    same "how often a new file is opened" 2 "$(wc -w <<<"$opened")"
    for call in openat-first openat-last write fsync fchmod rename; do
        # Of `write` and `openat` those on the new file: the second `write`, since the script's answer is the first.
        when=1
        case $call in
            write) when=2 ;;
            openat-first) when=$(head -n 1 <<<"$opened") ;;
            openat-last) when=$(tail -n 1 <<<"$opened") ;;
        esac
        call=${call%-*}
        begin
        strace -qq -o /dev/null -e trace="$call" -e inject="$call:error=EIO:when=$when" "$program" "${save[@]}" >/dev/null 2>"$folder/err"
        same "$call is refused: status" 2 $?
        same "$call is refused: errors" "cannot write $room/image: Input/output error (os error 5)" "$(cat "$folder/err")"
        unchanged "$call is refused"
        strace -qq -o /dev/null -e trace="$call" -e inject="$call:error=EIO:signal=KILL:when=$when" "$program" "${save[@]}" >/dev/null 2>&1
        same "killed at $call: the image" "$old" "$(sum "$room/image")"
    done
    begin
    strace -qq -o /dev/null -e trace=rename -e inject=rename:delay_exit=1:signal=KILL "$program" "${save[@]}" >/dev/null 2>&1
    found=$(sum "$room/image")
    [ "$found" = "$old" ] || [ "$found" = "$new" ]
    same "killed as it is put in its place" 0 $?
    begin_overwritten
    opened=$(strace -e trace=openat "$program" clean "$room/image" 2>&1 >/dev/null | grep -n 'image.new-' | cut -d: -f1)
    same "how often clean opens a new file" 2 "$(wc -w <<<"$opened")"
    for call in openat-first openat-last write fsync fchmod rename; do
        # Its answer is written after the new file.
        when=1
        case $call in
            openat-first) when=$(head -n 1 <<<"$opened") ;;
            openat-last) when=$(tail -n 1 <<<"$opened") ;;
        esac
        call=${call%-*}
        begin_overwritten
        strace -qq -o /dev/null -e trace="$call" -e inject="$call:error=EIO:when=$when" "$program" clean "$room/image" >"$folder/out" 2>"$folder/err"
        same "clean, $call is refused: status" 2 $?
        same "clean, $call is refused: output" "" "$(cat "$folder/out")"
        same "clean, $call is refused: errors" "cannot write $room/image: Input/output error (os error 5)" "$(cat "$folder/err")"
        unchanged "clean, $call is refused"
        strace -qq -o /dev/null -e trace="$call" -e inject="$call:error=EIO:signal=KILL:when=$when" "$program" clean "$room/image" >/dev/null 2>&1
        same "clean, killed at $call: the image" "$old" "$(sum "$room/image")"
    done
    for call in link linkat; do
        begin
        strace -qq -o /dev/null -e trace="$call" -e inject="$call:error=EIO:signal=KILL" "$program" mkfs "$room/other" --blocks 64 --cpus 1 --tables 1 >/dev/null 2>&1
        same "mkfs killed at $call: the image beside it" "$old" "$(sum "$room/image")"
    done
else
    echo "left out: refused system calls, and stops at them; strace isn't installed or may not trace"
fi

close
