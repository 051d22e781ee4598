#!/usr/bin/env bash
# Tries the program on damaged images and on scripts, made at random, for so many minutes: tests/fuzz.py says what it tries.
#
# usage: tests/fuzz.sh MINUTES [PEER] [SEED]
#
# PEER is the folder of the native program's sources, a crate `nova_ref`, which is then the judge of each case. What is found
# becomes a test of the gate.
set -eu
source "$(dirname "${BASH_SOURCE[0]}")/parts.sh" || exit 2
[ $# -ge 1 ] || usage
judge=()
if [ -n "${2-}" ]; then
    needs_native "$2"
    judge=(--judge "$NOVA_NATIVE")
fi
"$here/nova" run </dev/null
python3 "$here/tests/fuzz.py" "$built" "$1" --seed "${3:-1}" "${judge[@]}"
