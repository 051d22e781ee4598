#!/usr/bin/env bash
# Tries the program on regions of 262,144 blocks, the most that there can be.
#
# usage: tests/gibibyte.sh [PEER]
#
# Regions are formatted, read, saved, cut around that length, and made with too little memory, and the peak of memory is compared
# with what a region takes. PEER is the folder of the native program's sources, a crate `nova_ref`: it writes images of 1 GiB, small
# files, one directory of as many names as there can be inodes, files of many overwrites, and one big file. Of each the
# reports of 1, 2, 4 and 64 workers are compared with its own, and one that is read from a pipe. It closes with
# 'N passed, M failed'.
set -u
source "$(dirname "${BASH_SOURCE[0]}")/parts.sh" || exit 2
needs_program "$built"
blocks=262144
length=$((4096 * blocks))

# said SCRIPT: what a script prints, and its status. Its lines are parted by commas.
said() {
    printf '%s\n' "${1//, /$'\n'}" | "$built" run
    echo "status $?"
}

# most WORD..: the most memory that the program takes, in KiB.
most() {
    python3 - "$built" "$@" <<'PYTHON'
import resource, subprocess, sys
subprocess.run(sys.argv[1:], stdout=subprocess.DEVNULL, stderr=subprocess.DEVNULL)
print(resource.getrusage(resource.RUSAGE_CHILDREN).ru_maxrss)
PYTHON
}

# peak SCRIPT: the most memory that a script takes, in KiB.
peak() {
    printf '%s\n' "${1//, /$'\n'}" >"$folder/script"
    most run "$folder/script"
}

# The most CPUs and the longest tables. Each pool has 4,030 or 4,031 of the 257,983 data blocks, of which the root's log has one.
first=$((1 + 64 + 64 * 64))
wanted="ok
recovered inodes 1 free $((blocks - first - 1)) faults 0
status 0"
for workers in 1 2 4 64; do
    same "the longest tables on $workers workers" "$wanted" "$(said "format 64 $blocks 64, recover $workers")"
done

# A number of blocks that 16 bits don't hold.
same "65,537 blocks" "ok
recovered inodes 1 free 65533 faults 0
free 0 4-65536
status 0" "$(said "format 1 65537 1, recover 1, free")"

# Lengths around the bound: one that isn't of whole blocks, and a block less than the superblock says.
same "a block too many" "refused Length
refused NoRegion
status 2" "$(said "format 1 $((blocks + 1)) 1, recover 1")"
for row in "$length S0" "$((length - 1)) S1" "$((length - 8)) S1" "$((length - 4095)) S1" "$((length - 4096)) S5" "$((length - 4097)) S1"; do
    read -r cut fault <<<"$row"
    wanted="refused $fault"
    status=2
    [ "$fault" = S0 ] && wanted="recovered inodes 1 free $((blocks - 4)) faults 0" && status=0
    same "a region cut to $cut bytes" "ok
ok
$wanted
status $status" "$(said "format 1 $blocks 1, cut $cut, recover 2")"
done

# What a region takes, a piece more for the program, and no more for a write than a MiB and the places of its pages.
region=$((length / 1024))
made=$(peak "format 1 $blocks 1, recover 1")
[ "$made" -le $((region + 25600)) ]
holds "a region of 1 GiB takes $((made / 1024)) MiB" $?
made=$(peak "format 1 $blocks 1, recover 1, create 0 /f")
written=$(peak "format 1 $blocks 1, recover 1, create 0 /f, write 0 /f 0 536870912 65")
[ $((written - made)) -le 2048 ]
holds "a write of 512 MiB takes $((written - made)) KiB more" $?

# An image is read into the words of its region in pieces, and saved in pieces, so that both are held once.
"$built" mkfs "$folder/image" --blocks "$blocks" --cpus 1 --tables 1 >"$folder/said"
echo "recover 1" >"$folder/recover"
run=(run "$folder/recover" --image "$folder/image")
read=$(most "${run[@]}")
[ "$read" -le $((region + 25600)) ]
holds "an image of 1 GiB is read in $((read / 1024)) MiB" $?
saved=$(most "${run[@]}" --save "$folder/saved")
[ "$saved" -le $((region + 25600)) ] && cmp -s "$folder/image" "$folder/saved"
holds "and saved in $((saved / 1024)) MiB, as it was" $?
rm -f "$folder/image" "$folder/saved"

# Where memory is wanted for it, no region is made, and nothing is written.
printf 'format 1 %d 1\n' "$blocks" >"$folder/script"
for most in 500000 1000000 1500000 2000000; do
    (
        ulimit -v "$most"
        "$built" run "$folder/script" --save "$folder/none" >"$folder/out" 2>"$folder/error"
        echo $? >"$folder/status"
    )
    same "a region of 1 GiB in $most KiB" "2 failed Memory" "$(cat "$folder/status" "$folder/out" "$folder/error" | tr '\n' ' ' | sed 's/ $//')"
    [ ! -e "$folder/none" ]
    holds "nothing is saved in $most KiB" $?
done

if [ -n "${1-}" ]; then
    [ -f "$1/Cargo.toml" ] || usage
    needs_native "$1"
    peer=$NOVA_NATIVE
    for name in small names frag big; do
        case $name in
            small) shape=(--cpus 64 --blocks "$blocks" --tables 64 --files 124000 --dirs 200 --size 4096) ;;
            *) shape=(--shape "$name" --blocks "$blocks") ;;
        esac
        "$peer" bench "${shape[@]}" --runs 1 --out "$folder/image" >"$folder/said"
        "$peer" check "$folder/image" --workers 4 >"$folder/wanted"
        wanted=$?
        for workers in 1 2 4 64; do
            "$built" check "$folder/image" --workers "$workers" >"$folder/found" 2>"$folder/error"
            [ $? = "$wanted" ] && cmp -s "$folder/wanted" "$folder/found"
            holds "$name on $workers workers" $?
        done
        "$built" check /dev/stdin --workers 4 <"$folder/image" >"$folder/found" 2>"$folder/error"
        [ $? = "$wanted" ] && cmp -s "$folder/wanted" "$folder/found"
        holds "$name by standard input" $?
        # shellcheck disable=SC2002
        cat "$folder/image" | "$built" check /dev/stdin --workers 4 >"$folder/found" 2>"$folder/error"
        [ "${PIPESTATUS[1]}" = "$wanted" ] && cmp -s "$folder/wanted" "$folder/found"
        holds "$name by a pipe" $?
        rm -f "$folder/image"
    done
fi

close
