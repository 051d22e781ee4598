#!/usr/bin/env bash
# Tries wrong bodies, of which the prover must refuse each.
#
#     tests/wrong-bodies.sh [CRATE..]                    those of these crates, or of all, that the gate leaves out: crates/NAME/wrong-bodies
#     tests/wrong-bodies.sh --since COMMIT [CRATE..]     all of those crates that changed since the commit, the gate's own too: must-fail
#     JOBS=2 tests/wrong-bodies.sh ..                    two crates at a time; without JOBS as many as there are processors, at most 4
#
# A crate has changed where a file of its src, specs, proofs or wrong bodies is not as the commit has it, committed or not.
# They are tried by `rt must-fail` in a copy of the repository, all as must-fail. What the prover kept of the crates is linked
# into it, or copied where that can't be, so that a crate that is proved already isn't proved once more. Prints a line for
# each, crate by crate as they are done, and closes with 'N refused, M accepted, K bad': one is bad that could not be applied,
# compiled, read or tried. The status is 1 where one was accepted or bad.
set -u
here=$(cd "$(dirname "${BASH_SOURCE[0]}")/.." && pwd)
cores=$(nproc)
jobs=${JOBS:-$((cores < 4 ? cores : 4))}

stop() {
    echo "wrong-bodies: $1" >&2
    exit 2
}

# The crates with a file that is not as the commit $1 has it.
changed_since() {
    { git -C "$here" diff --name-only --no-renames "$1" -- crates && git -C "$here" ls-files --others --exclude-standard -- crates; } |
        sed -nE 's#^crates/([^/]+)/(src|specs|proofs|must-fail|wrong-bodies)/.*#\1#p' | sort -u
}

has_edits() {
    local part
    for part in "${parts[@]}"; do
        [ ! -d "$here/crates/$1/$part" ] || return 0
    done
    return 1
}

parts=(wrong-bodies)
since=
if [ "${1-}" = --since ]; then
    since=${2-}
    git -C "$here" rev-parse -q --verify "$since^{commit}" >/dev/null || stop "'$since' names no commit"
    parts=(must-fail wrong-bodies)
    shift 2
fi
for name in "$@"; do
    has_edits "$name" || stop "the crate $name has none"
done
names=()
for folder in "$here"/crates/*; do
    name=$(basename "$folder")
    [ $# -eq 0 ] || [[ " $* " = *" $name "* ]] || continue
    ! has_edits "$name" || names+=("$name")
done
if [ -n "$since" ]; then
    mapfile -t names < <(comm -12 <(printf '%s\n' "${names[@]}" | sort) <(changed_since "$since"))
fi

copy=$(mktemp -d)
trap 'rm -rf "$copy"' EXIT
cp "$here/crates.txt" "$here/HANDLES" "$copy/"
for folder in "$here"/crates/*; do
    to=$copy/crates/$(basename "$folder")
    mkdir -p "$to/must-fail"
    for part in src specs proofs; do
        [ ! -d "$folder/$part" ] || cp -a "$folder/$part" "$to/"
    done
    for part in "${parts[@]}"; do
        [ ! -d "$folder/$part" ] || cp -a "$folder/$part/." "$to/must-fail/"
    done
    if [ -d "$folder/out" ]; then
        cp -al "$folder/out" "$to/" 2>/dev/null || cp -a --reflink=auto "$folder/out" "$to/"
    fi
done

cd "$copy" || exit 2
printf '%s\n' "${names[@]}" | xargs -P "$jobs" -I{} sh -c 'rt must-fail "$1" >"$1.tried" 2>&1; cat "$1.tried"' sh {}

refused=0
accepted=0
all=0
for name in "${names[@]}"; do
    refused=$((refused + $(grep -c 'must-fail .*: refused, as it must be' "$name.tried")))
    accepted=$((accepted + $(grep -c 'must-fail .*: NOT REFUSED' "$name.tried")))
    all=$((all + $(find "crates/$name/must-fail" -name '*.edit' | wc -l)))
done
echo "$refused refused, $accepted accepted, $((all - refused - accepted)) bad"
[ "$refused" -eq "$all" ]
