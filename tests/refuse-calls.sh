#!/usr/bin/env bash
# Runs the calls of the program refusals with each of their allocations refused in turn (`refusing.sh` says how). It ends
# with status 1, and says why, where a run faults, hangs, or ends in any way but these: all calls, claims and joins were
# done; all were, one of them at its second try, since the first was refused memory and changed nothing; or memory was
# refused outside of them.
#
# It takes eight minutes.
set -u
source "$(dirname "${BASH_SOURCE[0]}")/refusing.sh"
runs=255
refuse_each calls $runs

mapfile -t whole < <(tail -n 2 stdout)
wanted=(
    "run=ended status=0: ${whole[0]}; ${whole[1]};"
    "run=ended status=1: ${whole[0]}; refused elsewhere;"
    "run=ended status=1: refused elsewhere;"
)
# At most one call is refused in a run.
sed 's/ refused once: [A-Za-z]*;//' "$ends" >"$folder/done"
only_ways "$folder/done" "${wanted[@]}"
each_way "${wanted[@]}"
for call in Claim Join Create MakeDirectory Write CreateInFullTable; do
    grep -q "refused once: $call;" "$ends" || say_wrong "no run in which $call was refused"
done
echo "$runs runs, in $(grep -c 'refused once' "$ends") a call was refused"
exit $wrong
