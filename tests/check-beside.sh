#!/usr/bin/env bash
# Measures `nova check` of whole images beside a native program that proves nothing and beside e2fsck, and prints a table.
#
# usage: tests/check-beside.sh PEER [ROUNDS [BLOCKS]]
#
# PEER is the folder of the native program's sources, a crate `nova_ref`. It writes the images, of 65,536 blocks or BLOCKS: small
# files, one directory of many names, files of many overwrites, and one big file. An ext4 image for e2fsck is made with as many
# files, names or bytes, but for the overwrites. In each round (9 where none are given) the three run one after the other, on 4
# workers where they have workers, and the best of all rounds counts. Images are in the cache. For nova the table has the peak of
# its memory and the bytes that it read too. GNU time tells the peak, where it is there: a child of Python begins with Python's own
# peak, 10 MB. Nothing else should run meanwhile.
set -eu
source "$(dirname "${BASH_SOURCE[0]}")/parts.sh" || exit 2
[ $# -ge 1 ] && [ -f "$1/Cargo.toml" ] || usage
rounds=${2:-9} blocks=${3:-65536}
# As many small files to a block, and tables with room for them.
files=$((blocks * 31000 / 65536)) cpus=$((blocks > 65536 ? 64 : 16))
needs_native "$1"
peer=$NOVA_NATIVE
needs_program "$built"
export GLIBC_TUNABLES=glibc.malloc.hugetlb=1

shape() {
    case $1 in
        small) echo --cpus "$cpus" --blocks "$blocks" --tables 64 --files "$files" --dirs 200 --size 4096 ;;
        *) echo --shape "$1" --blocks "$blocks" ;;
    esac
}

# tree SHAPE FOLDER: files of ext4 that are as many, or as many bytes, as those of the shape.
tree() {
    python3 - "$1" "$2" "$blocks" <<'PYTHON'
import os, sys
shape, folder, blocks = sys.argv[1], sys.argv[2], int(sys.argv[3])
os.makedirs(folder)
if shape == "small":
    for number in range(blocks * 31000 // 65536):
        place = f"{folder}/d{number % 200}"
        os.makedirs(place, exist_ok=True)
        with open(f"{place}/f{number}", "wb") as file:
            file.write(b"x" * 4096)
elif shape == "names":
    for number in range(min(blocks * 60000 // 65536, 131000)):
        open(f"{folder}/name{number:06}", "wb").close()
else:
    with open(f"{folder}/big", "wb") as file:
        for _ in range(blocks * 230 // 65536):
            file.write(b"x" * (1 << 20))
PYTHON
}

# ext4 SHAPE: an image of ext4 with these. They are written by a mount where that is allowed: mke2fs looks for a name in all of its
# directory.
ext4() {
    local bytes=$((blocks * 4800)) inodes=$((blocks > 65536 ? 140000 : 62000))
    [ "$1" != frag ] && command -v mke2fs >/dev/null || return 0
    mke2fs -q -t ext4 -N $inodes "$folder/ext4" $((bytes >> 20))M >"$folder/said" 2>&1
    mkdir -p "$folder/at"
    if mount -o loop "$folder/ext4" "$folder/at" 2>"$folder/said"; then
        tree "$1" "$folder/at/tree"
        umount "$folder/at"
    else
        tree "$1" "$folder/tree"
        mke2fs -q -t ext4 -d "$folder/tree" -N $inodes "$folder/ext4" $((bytes >> 20))M >"$folder/said" 2>&1
        rm -rf "$folder/tree"
    fi
    cat "$folder/ext4" >/dev/null
}

# peak WORD..: the most memory that a command takes, in MB.
peak() {
    if [ -x /usr/bin/time ]; then
        /usr/bin/time -f '%M' "$@" 2>&1 >"$folder/said" | tail -n 1 | awk '{ printf "%.0f", $1 / 1000 }'
    else
        measured "$@" | cut -d' ' -f2
    fi
}

# measured WORD..: the milliseconds of a command, its peak of memory and the bytes that it read, both in MB.
measured() {
    python3 - "$@" <<'PYTHON'
import os, sys, time
start = time.perf_counter()
child = os.fork()
if child == 0:
    nothing = os.open("/dev/null", os.O_WRONLY)
    os.dup2(nothing, 1)
    os.dup2(nothing, 2)
    os.execvp(sys.argv[1], sys.argv[1:])
os.waitid(os.P_PID, child, os.WEXITED | os.WNOWAIT)
spent = time.perf_counter() - start
with open(f"/proc/{child}/io") as file:
    read = int(file.readline().split()[1])
usage = os.wait4(child, 0)[2]
print(f"{1000 * spent:.1f} {usage.ru_maxrss / 1000:.0f} {read / 1e6:.1f}")
PYTHON
}

for name in small names frag big; do
    # shellcheck disable=SC2046
    "$peer" bench $(shape "$name") --runs 1 --out "$folder/image" >"$folder/said"
    cat "$folder/image" >/dev/null
    ext4 "$name"
    for _ in $(seq "$rounds"); do
        echo "$name ours $(measured "$built" check --summary --workers 4 "$folder/image")"
        echo "$name peer $(measured "$peer" check "$folder/image" --workers 4)"
        [ ! -e "$folder/ext4" ] || echo "$name ext4 $(measured e2fsck -fn "$folder/ext4")"
    done
    echo "$name peak $(peak "$built" check --summary --workers 4 "$folder/image")"
    rm -f "$folder/image" "$folder/ext4"
done >"$folder/times"

awk '
    $2 == "peak" { memory[$1] = $3; next }
    { key = $1 " " $2; if (!(key in best) || $3 < best[key]) best[key] = $3; bytes[key] = $5; if (!seen[$1]++) names[++count] = $1 }
    END {
        print "| image | nova check, ms | its memory, MB | read, MB | native program, ms | e2fsck -fn, ms |"
        print "|---|---|---|---|---|---|"
        for (i = 1; i <= count; i++) {
            n = names[i]
            printf "| %s | %s | %s | %s | %s | %s |\n", n, best[n " ours"], memory[n], bytes[n " ours"], best[n " peer"], best[n " ext4"]
        }
    }' "$folder/times"
