# What the shell scripts of this folder share: the repository's place, a folder of their own, the counts, their usage, and
# the native program. They source it; it is no script itself.

here=$(cd "$(dirname "${BASH_SOURCE[0]}")/.." && pwd)
# Where `./nova` and the gate leave the program that is tried.
built=$here/crates/nova/out/nova
# Documents and sources are UTF-8, whatever the caller's locale is.
export PYTHONUTF8=1
folder=$(mktemp -d) || exit 2
trap 'rm -rf "$folder"' EXIT
passed=0
failed=0

# Prints the comment at the head of the script, and ends.
usage() {
    sed -n '2,/^[^#]/s/^# \{0,1\}//p' "${BASH_SOURCE[${#BASH_SOURCE[@]} - 1]}" >&2
    exit 2
}

# holds NAME STATUS: counts a case, which passed if the status is 0.
holds() {
    if [ "$2" -eq 0 ]; then
        passed=$((passed + 1))
    else
        failed=$((failed + 1))
        echo "WRONG: $1"
    fi
}

# same NAME WANTED FOUND
same() {
    [ "$2" = "$3" ]
    holds "$1" $?
    [ "$2" = "$3" ] || diff <(printf '%s\n' "$2") <(printf '%s\n' "$3") | sed 's/^/    /'
}

# told NAME STATUS OUTPUT ERRORS WORD..: runs $program with these words, and compares what it says.
told() {
    local name=$1 status=$2 output=$3 errors=$4
    shift 4
    "$program" "$@" >"$folder/out" 2>"$folder/err" </dev/null
    same "$name: status" "$status" "$?"
    same "$name: output" "$output" "$(cat "$folder/out")"
    same "$name: errors" "$errors" "$(cat "$folder/err")"
}

# sums_of FILE: the two numbers of its last line, if that is 'N passed, M failed'; else nothing.
sums_of() {
    tail -n 1 "$1" | sed -nE 's/^([0-9]+) passed, ([0-9]+) failed$/\1 \2/p'
}

# count PASSED FAILED: adds the counts of another script; one that said none has failed.
count() {
    passed=$((passed + ${1:-0}))
    failed=$((failed + ${2:-1}))
}

# needs_program PROGRAM: ends if it isn't built.
needs_program() {
    if [ ! -x "$1" ]; then
        echo "there is no program at $1; ./nova builds it" >&2
        exit 2
    fi
}

# needs_native FOLDER: builds the native program, a crate `nova_ref` whose sources the folder has. Its path is then
# $NOVA_NATIVE, which the scripts that this one runs take over, so that it is built once.
needs_native() {
    if [ -z "${NOVA_NATIVE-}" ]; then
        (cd "$1" && CARGO_TARGET_DIR=$folder/native cargo build --release --offline -q) || exit 2
        export NOVA_NATIVE=$folder/native/release/nova_ref
    fi
}

# Prints the counts, and ends with status 0 if nothing differed.
close() {
    echo "$passed passed, $failed failed"
    [ "$failed" -eq 0 ]
}
