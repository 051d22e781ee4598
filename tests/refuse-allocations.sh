#!/usr/bin/env bash
# Runs the recoveries of the program refusals with each of their allocations refused in turn (`refusing.sh` says how). It
# ends with status 1, and says why, where a run faults, hangs, or ends in any way but these: all recoveries found the whole;
# all did, one of them, or a worker, at its second try, since the first was refused memory; or memory was refused outside of
# them.
#
# Two threads make the allocations of the recoveries by workers, the last two, in an order that differs from run to run, and
# one or two more of them as the workers share the inodes: so the first few runs meet no refusal. It takes seventeen minutes.
set -u
source "$(dirname "${BASH_SOURCE[0]}")/refusing.sh"
refuse_each recoveries 750

mapfile -t whole < <(head -n 7 stdout)
wanted=()
so_far=
for line in "${whole[@]}"; do
    wanted+=("run=ended status=1:$so_far refused elsewhere;")
    so_far+=" $line;"
done
wanted+=("run=ended status=0:$so_far")
# At most one is refused in a run. A first try that rolled the journals back leaves one fault less to the second: that of
# the pending record which no journal may have.
sed -e 's/ refused once: worker, which gave 0 rows and 0 faults;//' \
    -e 's/ refused once: [A-Za-z]* [A-Za-z]* AsBefore;//' \
    -e 's/ refused once: \(Chained [A-Za-z]*\) RolledBack; \1: inodes 5 free 1 doubled 2 faults 7;/ \1: inodes 5 free 1 doubled 2 faults 8;/' \
    "$ends" >"$folder/done"
only_ways "$folder/done" "${wanted[@]}"
each_way "${wanted[@]}"
for place in worker, {Names,Chained}\ {OneThread,Schedule,TwoWorkers}\ AsBefore Chained\ {OneThread,Schedule,TwoWorkers}\ RolledBack; do
    grep -q "refused once: $place" "$ends" || say_wrong "no run with refused once: $place"
done
exit $wrong
