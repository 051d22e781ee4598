#!/usr/bin/env bash
# Tries the static library nova_c from C, Python and Rust, and compares nova.h with the exports.
#
#     tests/bindings.sh          prints a line for each difference, and closes with 'N passed, M failed'
#
# The library is that of mount/build, or that of `rt lib` in crates/nova_c. For Python it is made into a shared one. What isn't
# installed, cargo say, is left out with a word. What the calls answer is compared with bindings/c/calls.out, written by hand, and
# the image that they make is given to the program `nova`.
set -u
source "$(dirname "${BASH_SOURCE[0]}")/parts.sh" || exit 2
[ $# -eq 0 ] || usage
bindings=$here/bindings
library=$here/crates/nova_c/out/libnova_c.a
if [ ! -f "$library" ]; then
    echo "there is no library at $library; mount/build builds it" >&2
    exit 2
fi
needs_program "$built"
libc=$here/mount/out/liblibc_c.a
! kit=$(command -v rt) || libc=$(dirname "$(readlink -f "$kit")")/../c/liblibc_c.a
mkdir "$folder/libraries"
cp "$library" "$libc" "$folder/libraries/" || exit 2
export NOVA_C=$folder/libraries
cd "$folder" || exit 2

says=$("$bindings/header.py" --check 2>&1)
holds "nova.h is what the exports are${says:+: $says}" $?
same "nova.h has what the library has" "$(nm -g --defined-only "$library" | sed -n 's/^.* T \(nova_.*\)/\1/p' | sort)" \
    "$(grep -o '^uint32_t nova_[a-z_]*' "$bindings/c/nova.h" | sed 's/.* //' | sort)"

compile() {
    "${CC:-cc}" -O1 -Wall -Wextra -Werror -I"$bindings/c" "$@"
}

# C
compile "$bindings/c/calls.c" "$NOVA_C/libnova_c.a" "$NOVA_C/liblibc_c.a" -o calls
holds "calls.c is compiled" $?
same "what each call answers" "$(cat "$bindings/c/calls.out")" "$(./calls calls.img calls.report)"
same "its report is that of nova check" "$("$built" check calls.img)" "$(cat calls.report)"
compile "$bindings/c/example.c" "$NOVA_C/libnova_c.a" "$NOVA_C/liblibc_c.a" -o example
same "the example" "hi there" "$(./example example.img)"
same "nova reads what the example saved" "hi there" "$("$built" cat example.img /hello)"

# Python
compile -shared -fPIC -Wl,--whole-archive "$NOVA_C/libnova_c.a" -Wl,--no-whole-archive "$NOVA_C/liblibc_c.a" -o libnova_c.so
holds "a shared library is made" $?
NOVA_LIBRARY=$folder/libnova_c.so PYTHONDONTWRITEBYTECODE=1 python3 "$bindings/python/test_nova.py" >python.said 2>&1
holds "Python" $?
tail -n 1 python.said | grep -qx OK || cat python.said
calls=$(grep -o '^uint32_t nova_[a-z_]*' "$bindings/c/nova.h" | sed 's/.* nova_//' | grep -vx map | sort)
same "nova.py has each call but nova_map" "$calls" "$(sed -nE '/^_CALLS = /,/^}/s/^    "([a-z_]*)":.*/\1/p' "$bindings/python/nova.py" | sort)"
same "nova.py says each status" "$(sed -nE 's/^    NOVA_[A-Z0-9_]* = ([0-9]+),/\1/p' "$bindings/c/nova.h" | grep -vE '^(0|2[0-8])$' | xargs)" \
    "$(sed -nE '/^STATUSES = /,/^}/s/^    ([0-9]+):.*/\1/p' "$bindings/python/nova.py" | xargs)"
same "and the Rust crate" "$calls" "$(grep -o 'pub fn nova_[a-z_]*' "$bindings/rust/src/calls.rs" | sed 's/.* nova_//' | sort)"

# Rust
if command -v cargo >/dev/null; then
    (cd "$bindings/rust" && CARGO_TARGET_DIR=$folder/target cargo test --offline -q) >rust.said 2>&1
    holds "Rust" $? || true
    grep -q '^test result: ok' rust.said || cat rust.said
    (cd "$bindings/rust" && CARGO_TARGET_DIR=$folder/target cargo run --offline -q --example tree "$folder/calls.img") >tree.said 2>&1
    same "the example in Rust" "$(printf 'd inode 2 size 0\n  c inode 3 size 10')" "$(cat tree.said)"
    rm -f "$bindings/rust/Cargo.lock"
else
    echo "left out: Rust (there is no cargo)"
fi
close
