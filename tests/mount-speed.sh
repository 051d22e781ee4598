#!/usr/bin/env bash
# Measures a mount beside others, and the library's calls beside those of `bench calls`, and prints a table of each.
#
# usage: tests/mount-speed.sh [ROUNDS]
#
# All lies in a tmpfs of its own: the images of novafuse, with --mapped and without, of 65,536 blocks; the folder that bindfs shows;
# the image that ext4 is mounted of, by a loop device. In each round (3 where none are given) one is measured after the other, by
# mount/tests/speed.c, and the best of all rounds counts. What isn't installed, or isn't allowed, has a column of dashes. Calls a
# second, or MB a second; of the library, nanoseconds a call. Nothing else should run meanwhile; the load is printed.
#
# Beside each rate of a mount stands how many times that of bindfs it is, and whether that is enough: once, and twice for creates,
# renames and overwrites. A call of the library may take 1.1 times as long as by `bench calls`. It closes with the bars not met.
set -eu
source "$(dirname "${BASH_SOURCE[0]}")/parts.sh" || exit 2
[ $# -le 1 ] || usage
rounds=${1:-3}
[[ $rounds =~ ^[1-9][0-9]*$ ]] || usage
files=4000
mib=64
out=$here/mount/out
needs_program "$built"
needs_program "$out/novafuse"
compile() {
    "${CC:-cc}" -O2 -I"$here/bindings/c" "$@"
}
compile "$here/mount/tests/speed.c" -o "$folder/speed"
compile "$here/mount/tests/library.c" "$out/libnova_c.a" "$out/liblibc_c.a" -o "$folder/library"

room=$folder/room
at=$room/at
mkdir "$room"
leave() {
    fusermount3 -u -z "$at" 2>/dev/null || umount "$at" 2>/dev/null || true
    umount -l "$room" 2>/dev/null || true
    rm -rf "$folder"
}
trap leave EXIT
mount -t tmpfs -o size=3g none "$room" || { echo "a tmpfs can't be mounted" >&2; exit 2; }
mkdir "$at" "$room/shown" "$room/plain"

# begin KIND: mounts it at $at.
begin() {
    case $1 in
        mapped) "$built" mkfs "$room/nova.img" --blocks 65536 --cpus 4 --tables 64 --force >/dev/null &&
            "$out/novafuse" "$room/nova.img" "$at" --mapped 2>/dev/null ;;
        saved) "$built" mkfs "$room/nova.img" --blocks 65536 --cpus 4 --tables 64 --force >/dev/null &&
            "$out/novafuse" "$room/nova.img" "$at" 2>/dev/null ;;
        bindfs) bindfs "$room/shown" "$at" ;;
        ext4) truncate -s 256M "$room/ext4.img" && mkfs.ext4 -q -F "$room/ext4.img" && mount -o loop "$room/ext4.img" "$at" ;;
        tmpfs) mount --bind "$room/plain" "$at" ;;
    esac
}

# end KIND
end() {
    case $1 in
        ext4 | tmpfs) umount "$at" ;;
        *) fusermount3 -u "$at" ;;
    esac
    while [ -e "$room/nova.img" ] && ! flock -n "$room/nova.img" true; do
        sleep 0.1
    done
    rm -f "$room"/*.img*
}

kinds=(mapped saved bindfs ext4 tmpfs)
begun=$(cut -d' ' -f1 /proc/loadavg)
for ((round = 1; round <= rounds; round++)); do
    for kind in "${kinds[@]}"; do
        if begin "$kind" 2>"$folder/said"; then
            "$folder/speed" "$at" $files $mib | sed "s/^/$kind\t/" >>"$folder/measured"
            end "$kind"
        elif [ $round = 1 ]; then
            echo "left out: $kind: $(head -n 1 "$folder/said")"
        fi
    done
done
bench=$here/crates/bench/out/bench
for ((round = 1; round <= rounds; round++)); do
    "$folder/library" 65536 4000 60000 | sed 's/^/library/' >>"$folder/called"
    [ ! -x "$bench" ] || "$bench" calls 65536 4000 60000 2>&1 >/dev/null | sed 's/^/bench/' >>"$folder/called"
done

python3 - "$folder" "$rounds" "$begun" "${kinds[@]}" <<'PYTHON'
import re, sys
folder, rounds, load, *kinds = sys.argv[1:]
names = {"mapped": "nova, --mapped", "saved": "nova", "bindfs": "bindfs", "ext4": "ext4, loop", "tmpfs": "tmpfs"}
best = {}
for line in open(f"{folder}/measured"):
    kind, what, number = line.rstrip("\n").split("\t")
    row = best.setdefault(what, {})
    row[kind] = max(row.get(kind, 0), int(number))
now = open("/proc/loadavg").read().split()[0]
missed = []


def bar(name, found, most, least=False):
    """A word of whether a bar is met; one that isn't is told at the end too."""
    met = found >= most if least else found <= most
    if not met:
        missed.append(f"{name}: {found:.2f}, bar {most}")
    return "met" if met else "not met"


# What the mount has to do as often as bindfs at least, and what twice as often.
wanted = {"create": 2, "open": 1, "rename": 2, "overwrite 4 KiB, calls": 2, "write 128": 1, "read 128": 1}


def beside(what, row, kind):
    """How many times as often as bindfs, and whether that is enough."""
    if kind not in row or not row.get("bindfs"):
        return "-"
    times = row[kind] / row["bindfs"]
    least = next((least for start, least in wanted.items() if what.startswith(start)), None)
    return f"{times:.2f}" + (f", {least}: {bar(f'{names[kind]}: {what}', round(times, 2), least, least=True)}" if least else "")


print(f"Best of {rounds}, load {load} to {now}.\n")
print("| a second | " + " | ".join(names[kind] for kind in kinds) + " | --mapped, times bindfs | without |\n" + "|---" * (len(kinds) + 3) + "|")
for what, row in best.items():
    cells = [f"{row[kind]:,}" if kind in row else "-" for kind in kinds] + [beside(what, row, kind) for kind in ("mapped", "saved")]
    print(f"| {what} | " + " | ".join(cells) + " |")
# A label may stand for a call on files and for one on names: the first and the second time that it comes in a round.
called, seen = {}, {}
for line in open(f"{folder}/called"):
    who, label, number = re.match(r"(\w+)  (.*): (\d+) ns", line).groups()
    if label == "mkdir of directories":
        seen[who] = set()
    key = label + (", names" if label in seen[who] else "")
    seen[who].add(label)
    row = called.setdefault(key, {})
    row[who] = min(row.get(who, 1 << 60), int(number))
print("\n| nanoseconds | library | bench | |\n|---|---|---|---|")
for label, row in called.items():
    times = row["library"] / max(row["bench"], 1) if "bench" in row else None
    ratio = "-" if times is None else f"{times:.2f}"
    # Those that are made once or 16 times have no bar.
    if times is not None and label not in ("mkdir of directories", "mkdir of the other"):
        ratio += f", 1.1: {bar(f'library: {label}', round(times, 2), 1.1)}"
    print(f"| {label} | {row['library']:,} | {row.get('bench', '-')} | {ratio} |")
print(f"\n{len(missed)} bars not met" + "".join(f"\n- {what}" for what in missed))
PYTHON
