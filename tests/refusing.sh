# Runs a part of the program refusals with each of its allocations refused in turn. `refuse-allocations.sh` and
# `refuse-calls.sh` source it.
#
# One build of `rt try` refuses the allocation of the same number in all its runs. So run K takes K blocks of memory first:
# run 0 meets no refusal, in the last the first allocation is refused.

source "$(dirname "${BASH_SOURCE[0]}")/parts.sh" || exit 2
# How each run ended, a line for each.
ends=$folder/ends
wrong=0

say_wrong() {
    echo "WRONG: $*"
    wrong=1
}

# refuse_each PART RUNS: runs this part of the program so often, and prints how many of the runs ended in which way: a line
# for each, its status and what it printed.
refuse_each() {
    local blocks
    mkdir "$folder/cases"
    for ((blocks = 0; blocks < $2; blocks++)); do
        : >"$folder/cases/$blocks"
        printf '%s\n%s\n' "$1" "$blocks" >"$folder/cases/$blocks.args"
    done
    cd "$here/crates/refusals" || exit 1
    rt try --steps 1 --fail-alloc "$2" --cases "$folder/cases" >"$folder/log" 2>&1

    # Each run on one line.
    awk '/^== /          { text = ""; next }
         /^allocations:/ { next }
         /^case=/        { print $2, $3 ":" text; next }
                         { text = text " " $0 ";" }' "$folder/log" >"$ends"
    sort "$ends" | uniq -c
    if [ "$(wc -l <"$ends")" != "$2" ]; then
        say_wrong "not $2 runs"
        tail -n 5 "$folder/log"
    fi
}

# only_ways FILE WAY..: each line of the file is one of these.
only_ways() {
    local file=$1 line
    shift
    while IFS= read -r line; do
        say_wrong "$line"
    done < <(printf '%s\n' "$@" | grep -vxFf - "$file" | sort -u)
}

# each_way WAY..: each of these is the way in which a run ended.
each_way() {
    local way
    for way in "$@"; do
        grep -qxF "$way" "$ends" || say_wrong "no run with $way"
    done
}
