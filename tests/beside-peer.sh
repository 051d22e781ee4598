#!/usr/bin/env bash
# Measures recovery beside a native program that does the same and proves nothing, and prints a table with the ratios.
#
# usage: tests/beside-peer.sh PEER [ROUNDS [BLOCKS]]
#
# PEER is the folder of the native program's sources, a crate `nova_ref` whose `bench` writes an image and times its own
# recovery. In each round (5 where none are given) the native program and `bench` run one after the other, three
# recoveries each, and the best of all rounds counts. The images have 65,536 blocks, or BLOCKS: small files, one big file,
# one directory of many names, and files of many overwrites. Both keep the memory that they free, so that a recovery doesn't
# wait for the system to clear it again, and both have huge pages. Nothing else should run meanwhile.
set -eu
source "$(dirname "${BASH_SOURCE[0]}")/parts.sh" || exit 2
[ $# -ge 1 ] && [ -f "$1/Cargo.toml" ] || usage
rounds=${2:-5} blocks=${3:-65536}
# As many small files to a block, and tables with room for them.
files=$((blocks * 31000 / 65536)) cpus=$((blocks > 65536 ? 64 : 16))
# 32 MiB is the most that the C library takes as the second.
export MALLOC_TRIM_THRESHOLD_=1073741824 MALLOC_MMAP_THRESHOLD_=33554432
export GLIBC_TUNABLES=glibc.malloc.hugetlb=1
needs_native "$1"
peer=$NOVA_NATIVE
(cd "$here/crates/bench" && rt run >"$folder/built" 2>&1) || { tail -n 20 "$folder/built"; exit 2; }
ours=$here/crates/bench/out/bench

shape() {
    case $1 in
        small) echo --cpus "$cpus" --blocks "$blocks" --tables 64 --files "$files" --dirs 200 --size 4096 ;;
        *) echo --shape "$1" --blocks "$blocks" ;;
    esac
}

for name in small big names frag; do
    for _ in $(seq "$rounds"); do
        # shellcheck disable=SC2046
        "$peer" bench $(shape "$name") --runs 3 --out "$folder/image" |
            awk -F'|' -v name="$name" '$3 + 0 > 0 { print name, "peer", $3 + 0, $7 + 0 }'
        "$ours" recovery 3 "$folder/image" 2>&1 >"$folder/found" |
            awk -v name="$name" '/ ms, / { print name, "ours", ($1 == "one" ? 0 : $1), $3 }'
        if grep -q refused "$folder/found"; then
            echo "$name: refused" >&2
            exit 1
        fi
    done
    rm -f "$folder/image"
done >"$folder/times"

awk '
    { key = $1 " " $2 " " $3; if (!(key in best) || $4 < best[key]) best[key] = $4; if (!seen[$1]++) names[++count] = $1 }
    function cell(name, way, other,    mine, theirs) {
        mine = best[name " ours " way]
        theirs = best[name " peer " other]
        return sprintf("%.1f (%.1f)", mine, mine / theirs)
    }
    END {
        print "milliseconds, and how many times as long as the native program on as many threads"
        print ""
        print "| image | one thread | 1 worker | 2 workers | 4 workers | native 1 | native 2 | native 4 |"
        print "|---|---|---|---|---|---|---|---|"
        for (i = 1; i <= count; i++) {
            n = names[i]
            printf "| %s | %s | %s | %s | %s | %.1f | %.1f | %.1f |\n", n, cell(n, 0, 1), cell(n, 1, 1), cell(n, 2, 2), cell(n, 4, 4), best[n " peer 1"], best[n " peer 2"], best[n " peer 4"]
        }
    }' "$folder/times"
