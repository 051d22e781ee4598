#!/usr/bin/env bash
# Mounts images by mount/out/novafuse, lets programs work in them, and kills it in the midst.
#
#     tests/mount.sh [--kills N]        prints a line for each difference, and closes with 'N passed, M failed'
#
# mount/build makes the program. Where /dev/fuse isn't there or isn't allowed, nothing is tried, and it says so; programs that
# aren't installed (git, sqlite3, fio) are left out with a word. After each part the image is given to `nova check`.
set -u
source "$(dirname "${BASH_SOURCE[0]}")/parts.sh" || exit 2
kills=100
if [ "${1-}" = --kills ] && [ $# -eq 2 ]; then
    kills=$2
elif [ $# -ne 0 ]; then
    usage
fi
novafuse=$here/mount/out/novafuse
if [ ! -x "$novafuse" ]; then
    echo "there is no program at $novafuse; mount/build builds it" >&2
    exit 2
fi
needs_program "$built"
cd "$folder" || exit 2

# ---- the library by itself

compile() {
    "${CC:-cc}" -O2 -Wall -Wextra -I"$here/bindings/c" "$@" || exit 2
}
libraries=$here/mount/out
compile "$here/mount/tests/stops.c" "$libraries/libnova_c.a" "$libraries/liblibc_c.a" -o stops
./stops >stops.said 2>&1
status=$?
holds "calls stopped at the machine's stores: $(tail -n 1 stops.said)" $status
compile -fsanitize=address "$here/mount/tests/tries.c" "$libraries/libnova_c.a" -o tries
"$built" mkfs small.img --blocks 64 --cpus 2 --tables 1 >/dev/null &&
    "$built" run "$here/examples/hello.nova" --image small.img --save small.img >/dev/null
./tries small.img 5000 1 >tries.said 2>&1
status=$?
holds "damaged images and refused allocations: $(tail -n 1 tries.said)" $status

# ---- saving by itself

compile "$here"/mount/tests/saves.c "$here"/mount/{image,changes}.c -I"$here/mount" -o saves
touch saves.img
./saves saves.img 64 "$kills" 1 >saves.said 2>&1
status=$?
holds "saving is killed in the midst: $(tail -n 1 saves.said)" $status

# ---- the table of inodes by itself

compile -fsanitize=address "$here"/mount/tests/nodes.c "$here"/mount/nodes.c -o nodes
./nodes 20000 1 >nodes.said 2>&1
status=$?
holds "the inodes that the kernel has: $(tail -n 1 nodes.said)" $status

# ---- mounts

if [ ! -w /dev/fuse ] || ! command -v fusermount3 >/dev/null; then
    echo "left out: all (/dev/fuse or fusermount3 isn't there)"
    close
    exit
fi
mkdir mnt other
at=$folder/mnt
trap 'fusermount3 -u -z "$at" 2>/dev/null; rm -rf "$folder"' EXIT

has() {
    command -v "$1" >/dev/null || { echo "left out: $1 (it isn't installed)"; return 1; }
}

# make IMAGE BLOCKS [TABLES]
make() {
    "$built" mkfs "$1" --blocks "$2" --cpus 4 --tables "${3:-16}" --force >/dev/null || exit 2
}

# refused IMAGE: what novafuse says of an image that it doesn't mount, and its status.
refused() {
    "$novafuse" "$1" "$folder/other" 2>&1
    echo "status $?"
}

# mounted IMAGE [OPTION..]: mounts it, and says what went wrong.
mounted() {
    local image=$1
    shift
    "$novafuse" "$image" "$at" "$@" 2>mount.said || { cat mount.said; return 1; }
}

# unmounted: unmounts, and waits until the program has saved the image and let go of it.
unmounted() {
    fusermount3 -u "$at"
    local status=$?
    for image in *.img; do
        flock "$image" true
    done
    return $status
}

# sound NAME IMAGE: the image is unmounted, and has no faults.
sound() {
    ! mountpoint -q "$at" || unmounted
    holds "$1: it is unmounted" $?
    "$built" check "$2" --summary >checked 2>&1
    local status=$?
    holds "$1: no faults: $(cat checked)" $status
}

# ---- programs

# copies OPTION..: files that are copied are the same, also after another mount.
copies() {
    make copies.img 16384
    mounted copies.img "$@" && cp -r "$here/docs" "$here/crates/nv_region/src" "$at/" && diff -r "$here/docs" "$at/docs"
    holds "cp and diff $*" $?
    sound "cp $*" copies.img
    mounted copies.img "$@" && diff -r "$here/docs" "$at/docs" && diff -r "$here/crates/nv_region/src" "$at/src"
    holds "diff after another mount $*" $?
    rm -rf "$at/docs" && [ "$(ls "$at")" = src ]
    holds "rm -rf $*" $?
    sound "rm $*" copies.img
}

git_works() {
    make git.img 65536
    mounted git.img --mapped || return 1
    (
        export GIT_CONFIG_GLOBAL=/dev/null GIT_AUTHOR_NAME=a GIT_AUTHOR_EMAIL=a@b GIT_COMMITTER_NAME=a GIT_COMMITTER_EMAIL=a@b
        git init -q "$folder/origin" && cp -r "$here/crates/nv_region" "$here/docs" "$folder/origin/" && rm -rf "$folder/origin/nv_region/out" &&
            git -C "$folder/origin" add . && git -C "$folder/origin" commit -qm one &&
            git clone -q --no-local "$folder/origin" "$at/clone" && cd "$at/clone" && echo more >>docs/MAP.md && git commit -qam two &&
            git checkout -q HEAD~1 && git checkout -q - && git gc -q && git fsck --strict && git diff --quiet HEAD
    ) >git.said 2>&1 || { cat git.said; return 1; }
}

# sqlite_works MODE: transactions in a journal mode, and the database is whole.
sqlite_works() {
    [ "$(sqlite3 "$at/$1.db" "pragma journal_mode=$1; create table t(a integer primary key, b blob);")" = "$1" ] &&
        for k in 1 2 3 4 5 6 7 8 9 10; do
            echo "begin; insert into t(b) select randomblob(700) from (select 1 union select 2 union select 3); delete from t where a % 7 = 3; commit;"
            echo "update t set b = randomblob(900) where a % 3 = 1;"
        done | sqlite3 "$at/$1.db" && [ "$(sqlite3 "$at/$1.db" 'pragma integrity_check')" = ok ]
}

for options in "" --mapped; do
    # shellcheck disable=SC2086
    copies $options
done
if has git; then
    git_works
    holds "git clone, commit, checkout, gc, fsck" $?
    sound git git.img
fi
if has sqlite3; then
    make sqlite.img 16384
    mounted sqlite.img --mapped
    for mode in delete truncate persist memory wal off; do
        sqlite_works $mode
        holds "sqlite3, journal_mode=$mode" $?
    done
    sound sqlite3 sqlite.img
fi
if has fio; then
    make fio.img 16384
    mounted fio.img --mapped && fio --name=verify --directory="$at" --rw=randwrite --bs=4k --size=16m --verify=crc32c --do_verify=1 \
        --loops=2 --minimal >fio.said 2>&1
    holds "fio" $?
    sound fio fio.img
fi

# ---- under the address sanitizer

# shellcheck disable=SC2046
compile -g -fsanitize=address,undefined "$here"/mount/*.c "$libraries/libnova_c.a" "$libraries/liblibc_c.a" \
    $(pkg-config --cflags --libs fuse3) -o novafuse.checked
for options in "" --mapped; do
    make checked.img 4096
    # shellcheck disable=SC2086
    ./novafuse.checked checked.img "$at" -f $options 2>checked.said &
    daemon=$!
    until mountpoint -q "$at"; do sleep 0.1; done
    cp -r "$here/docs" "$at/" && sync "$at/docs" && ln "$at/docs/MAP.md" "$at/map" && mv "$at/docs/MAP.md" "$at/docs/TRUST.md" &&
        diff "$here/docs/MAP.md" "$at/map" && diff "$here/docs/MAP.md" "$at/docs/TRUST.md" && sync "$at/map" && rm -r "$at/docs"
    holds "calls under the address sanitizer $options" $?
    python3 "$here/mount/tests/beside.py" "$at/beside" 6 2000 1 >beside.said && rm -r "$at/beside"
    status=$?
    holds "programs beside each other $options: $(tail -n 1 beside.said)" $status
    fusermount3 -u "$at"
    wait $daemon && ! grep 'ERROR: \|runtime error: ' checked.said
    holds "nothing is wrong with its memory $options" $?
    sound "checked $options" checked.img
done

# ---- one file beside a copy

compile "$here/mount/tests/fsx.c" -o fsx
make fsx.img 16384
mounted fsx.img --mapped && ./fsx "$at/file" 15000 1
holds "15,000 steps in one file" $?
sound fsx fsx.img

# ---- what it says of itself

make said.img 256
mounted said.img
same "statfs" "4096 256 186 255" "$(stat -f -c '%S %b %f %l' "$at")"
echo text >"$at/file" && touch -d @1000000000 "$at/file"
same "one time" "1000000000 1000000000" "$(stat -c '%Y %X' "$at/file")"
ln -s to "$at/symbolic" 2>/dev/null
holds "a symbolic link is refused" $((!$?))
same "a second mount is refused" "novafuse: $folder/said.img: it is mounted already status 2" "$(refused said.img | xargs)"
same "find goes into directories" 4 "$(mkdir -p "$at/a/b/c" && find "$at" -type d | wc -l)"
"$built" run "$here/examples/hello.nova" --save said.img --force >run.said 2>&1
holds "a command that writes the image is refused" $((!$?))
sound "said" said.img

# ---- names that go and come while files are open

# left WANTED: the names in the mount, once the kernel has closed all files.
left() {
    for _ in 1 2 3 4 5 6 7 8 9 10; do
        [ "$(ls -A "$at" | xargs)" = "$1" ] || sleep 0.1
    done
    same "the names that are left" "$1" "$(ls -A "$at" | xargs)"
}

make open.img 4096
mounted open.img --mapped
echo old >"$at/file" && exec 7<"$at/file" && rm "$at/file"
same "a removed file that is open" "old 0" "$(cat <&7) $(ls "$at" | wc -l)"
exec 7<&-
left ""
echo old >"$at/file" && echo new >"$at/other" && exec 7<"$at/file" && mv "$at/other" "$at/file"
same "a replaced file that is open" "old new" "$(cat <&7) $(cat "$at/file")"
exec 7<&-
left file
ln "$at/file" "$at/link" && cat "$at/link" >/dev/null && echo more >>"$at/file"
same "what is written under one name is read under another" "new more" "$(xargs <"$at/link")"
exec 7<"$at/file" && rm "$at/file"
same "a link that is removed while the file is open" "new more 1" "$(xargs <&7) $(stat -c %h "$at/link")"
exec 7<&-
left link
mkdir -p "$at/d/e" && exec 8>"$at/d/e/file" && mv "$at/d" "$at/f" && mv "$at/f/e" "$at/g" && echo moved >&8 && exec 8>&-
same "a file that is open in a directory that moves" moved "$(cat "$at/g/file")"
mkdir -p "$at/p/q" && touch "$at/p/q/"{1..300} && exec 8<"$at/p/q" && mv "$at/p" "$at/r"
same "a directory that is open and moves is listed" 300 "$(ls -l /proc/self/fd/8/ | grep -c '^-')"
exec 8<&-
rm -r "$at/r"
long=$(printf 'n%.0s' {1..200})
(cd "$at/f" && for _ in {1..20}; do mkdir "$long" && cd "$long" || exit; done && echo deep >file && [ "$(cat file)" = deep ])
holds "a path of 4,000 bytes" $?
(cd "$at/f" && for _ in {1..21}; do [ -d "$long" ] || mkdir "$long" && cd "$long" || exit; done && echo deeper >file && [ "$(cat file)" = deeper ])
holds "a path of more than 4,096 bytes" $?
(cd "$at/f" && for _ in {1..21}; do cd "$long" || exit 0; done && mv file other) 2>long.said
holds "a rename by such a path is refused" $((!$?))
grep -q 'File name too long' long.said
holds "by ENAMETOOLONG" $?
mkdir "$at/many" && (cd "$at/many" && touch {1..2000} && [ "$(ls | wc -l)" = 2000 ] && find . -type f -delete && [ -z "$(ls)" ])
holds "a directory whose names go while it is listed" $?
rm -r "$at/f" "$at/g" "$at/many"
left link
mkdir "$at/links" && echo linked >"$at/file" && for k in {1..999}; do ln "$at/file" "$at/links/$k" || break; done
unmounted && mounted open.img --mapped && exec 7<"$at/file" && rm "$at/file"
same "a removed file that is open and has the most links" "linked 999" "$(cat <&7) $(stat -L -c %h /proc/self/fd/7)"
exec 7<&-
rm -r "$at/links"
left link
sound "open" open.img

# ---- owners

as_nobody() {
    setpriv --reuid 65534 --regid 65534 --clear-groups "$@"
}

if [ "$(id -u)" = 0 ]; then
    make owned.img 256
    chmod 711 "$folder"
    mounted owned.img -o allow_other,default_permissions && chmod 1777 "$at" && echo text >"$at/other" &&
        as_nobody mkdir "$at/d" && as_nobody touch "$at/d/file"
    same "who makes a file owns it" "65534 65534 65534 65534" "$(stat -c '%u %g' "$at/d" "$at/d/file" | xargs)"
    as_nobody sh -c "echo more >>'$at/other'" 2>/dev/null
    holds "another's file is refused" $((!$?))
    sound "owned" owned.img
fi

# ---- fsync without --mapped: what was written is in the image, and only that is written

# synced FILE WANTED: what the image has after an fsync.
synced() {
    sync "$at/$1" && [ "$("$built" cat synced.img "/$1" 2>&1)" = "$2" ]
    holds "fsync is durable: $1" $?
}

# written_bytes: what the mount's program has written to files.
written_bytes() {
    sed -n 's/^wchar: //p' "/proc/$(pgrep -f "^$novafuse synced.img")/io"
}

make synced.img 65536
mounted synced.img
for k in 1 2 3 4; do
    echo "text $k" >"$at/file$k"
    before=$(written_bytes)
    synced "file$k" "text $k"
    after=$(written_bytes)
done
[ $((after - before)) -lt 1000000 ]
holds "fsync costs what was written: $((after - before)) bytes" $?
head -c 3000000 /dev/urandom >big && cp big "$at/big" && sync "$at/big" && "$built" cat synced.img /big | cmp - big
holds "fsync of more" $?
echo end >"$at/end"
sound "synced" synced.img
same "the unmount saves" end "$("$built" cat synced.img /end)"
same "and leaves nothing beside the image" synced.img "$(echo synced.img*)"
mounted synced.img && echo other >"$at/other" && cp synced.img moved.img && mv moved.img synced.img
sync "$at/other" 2>/dev/null
holds "an image that was replaced meanwhile is left alone" $((!$?))
fusermount3 -u "$at"
while pgrep -f "^$novafuse synced.img" >/dev/null; do sleep 0.1; done
same "what was written is beside it" other "$("$built" cat synced.img.novafuse /other)"
rm synced.img synced.img.novafuse

# ---- the largest image

# ten_times WORD..: runs a command with 0 to 9 behind it.
ten_times() {
    for k in 0 1 2 3 4 5 6 7 8 9; do
        "${@:1:$#-1}" "${!#}$k" || return 1
    done
}

make large.img 262144 64
head -c 70000000 /dev/urandom >part
mounted large.img --mapped && ten_times cp part "$at/part"
holds "700 MB in an image of 1 GiB" $?
sound "large" large.img
mounted large.img --mapped && ten_times cmp part "$at/part"
holds "they are there after another mount" $?
unmounted
rm large.img part

# ---- an image that is full

make full.img 64 1
mounted full.img --mapped
head -c 1000000 /dev/zero >"$at/file" 2>full.said
holds "a full image refuses" $((!$?))
grep -q 'No space left on device' full.said
holds "by ENOSPC" $?
rm "$at/file" && echo again >"$at/file" && [ "$(cat "$at/file")" = again ]
holds "and takes files again" $?
sound full full.img

# ---- damaged images

cp "$here/examples/ring.img" ring.img
before=$(sha256sum <ring.img)
for options in "" --mapped; do
    # shellcheck disable=SC2086
    mounted ring.img $options
    holds "a damaged image is mounted $options" $?
    grep -q 'has faults, so it can only be read' mount.said
    holds "and says so" $?
    touch "$at/file" 2>touch.said
    holds "it can't be written $options" $((!$?))
    grep -q 'Read-only file system' touch.said
    holds "by EROFS" $?
    ls "$at" >/dev/null
    holds "it can be read" $?
    unmounted
    same "it stays as it was $options" "$before" "$(sha256sum <ring.img)"
done
head -c 32768 /dev/zero >zeros.img
same "no superblock" "novafuse: $folder/zeros.img: the superblock isn't accepted: fault S2 status 2" "$(refused zeros.img | tr '\n' ' ' | sed 's/ $//')"
same "no image" "novafuse: none.img: No such file or directory status 2" "$(refused none.img | xargs)"

# ---- kills

for options in --mapped ""; do
    # shellcheck disable=SC2086
    python3 "$here/mount/tests/killed.py" "$novafuse" "$built" "$kills" 1 "$folder" $options >killed.said 2>&1
    status=$?
    holds "$kills kills $options: $(tail -n 1 killed.said)" $status
    [ $status -eq 0 ] || cat killed.said
done
close
