#!/usr/bin/env bash
# Tries the script `nova` and `prove.py` on a copy of the sources, with a kit of stubs that proves nothing and takes no time.
#
# It tries what is built and in which order, what is built again, two runs at once, interrupts, a crate that fails, and a
# check by the unproved program. It takes seconds. Prints a line for each difference, and closes with 'N passed, M failed'.
#
# Nothing here rests on how long something takes: a stub that is to be slow goes on when the file `go` is there, and what is
# waited for is looked for again and again.
set -u
source "$(dirname "${BASH_SOURCE[0]}")/parts.sh" || exit 2

kit=$folder/kit
copy=$folder/copy
log=$folder/log
go=$folder/go
mkdir -p "$kit/bin" "$copy/crates"
echo stubs >"$kit/KIT-ID"
cp "$here/nova" "$here/prove.py" "$here/crates.txt" "$copy/"
for crate in "$here"/crates/*; do
    mkdir "$copy/crates/${crate##*/}"
    cp -r "$crate/src" "$copy/crates/${crate##*/}/"
done
# The prover writes which crate it begins with and ends; it fails for $FAILS, and waits for $GO with $SLOW, $MOST seconds.
cat >"$kit/bin/rattle" <<'STUB'
#!/usr/bin/env bash
while [ $# -gt 0 ]; do
    case $1 in --crate-name) name=$2 ;; -o) to=$2 ;; esac
    shift
done
[ "$name" != "${SLOW-}" ] || echo $$ >"$GO.pid"
echo "begin $name" >>"$LOG"
if [ "$name" = "${SLOW-}" ]; then
    until [ -e "$GO" ] || [ "$SECONDS" -ge "$MOST" ]; do sleep 0.05; done
fi
if [ "$name" = "${FAILS-}" ]; then
    echo "fn why::$name: not proved: clause ok"
    printf 'chatter %d\n' {1..40}
    exit 1
fi
echo "logic=proved $name"
case $to in *.o) echo object >"$to" ;; *) mkdir -p "$to" ;; esac
echo "end $name" >>"$LOG"
STUB
cat >"$kit/bin/rattle-link" <<'STUB'
#!/usr/bin/env bash
while [ "$1" != -o ]; do shift; done
printf '#!/bin/sh\necho %s "$@"\n' "$(basename "$2" .new)" >"$2"
chmod +x "$2"
STUB
# `rt try` says where it runs and with which words, and ends as $TRIED has it.
cat >"$kit/bin/rt" <<'STUB'
#!/usr/bin/env bash
echo "${PWD##*/}: rt $*"
[ -z "${TRIED-}" ] || echo "run=ended status=$TRIED runners=1 races=unchecked proved=no" >&2
exit "${TRIED:-1}"
STUB
chmod +x "$kit"/bin/*
export LOG=$log GO=$go MOST=300 PATH=$kit/bin:$PATH

# within COMMAND..: whether the command succeeds before long, tried again and again.
within() {
    local began=$SECONDS
    until "$@" 2>/dev/null; do
        [ $((SECONDS - began)) -lt "$MOST" ] || return 1
        sleep 0.05
    done
}
# says TEXT FILE: whether a file has the text.
says() {
    grep -qF -- "$1" "$2"
}
# age FOLDER: makes all stamps of a copy older than its sources, since a file system may count by seconds.
age() {
    find "$1/crates" \( -name '*.started' -o -name '*.next' \) -exec touch -d '1 minute ago' {} +
}
# edit CRATE FILE: adds a line to a source, which is newer than all stamps.
edit() {
    age "$copy"
    echo '// more' >>"$copy/crates/$1/src/$2"
}
# ended PID: whether no process has this number, or one that has ended and isn't waited for.
ended() {
    [ -z "$(tr -d '\0' <"/proc/$1/cmdline")" ]
}
# What a run prints on standard output, and its status; what it says goes to a file.
run() {
    "$copy/nova" "$@" 2>"$folder/said"
    echo "status $?"
}
begun() {
    sed -n 's/^begin //p' "$log" | sort
}
# The crates that a program is made of, by crates.txt.
crates_of() {
    awk -F: -v want="$1" '
        /^[a-z]/ { split($1, name, " "); below[name[1]] = $2 }
        function add(crate, lower, count, i) {
            if (!(crate in below) || seen[crate]++) return
            print crate
            count = split(below[crate], lower, " ")
            for (i = 1; i <= count; i++) add(lower[i])
        }
        END { add(want) }' "$copy/crates.txt" | sort
}
# The crates of a program that stand on a crate, and itself.
above() {
    for crate in $(crates_of "$2"); do
        crates_of "$crate" | grep -qx "$1" && echo "$crate"
    done | sort
}

same "a check proves the checker's crates" "nova_check check x status 0" "$(run check x | xargs)"
same "no other crates" "$(crates_of nova_check)" "$(begun)"
wrong=
declare -A ended=()
while read -r what name; do
    if [ "$what" = end ]; then
        ended[$name]=1
        continue
    fi
    for lower in $(crates_of "$name"); do
        [ "$lower" = "$name" ] || [ -n "${ended[$lower]-}" ] || wrong="$wrong $name"
    done
done <"$log"
same "each after those that it stands on" "" "$wrong"
all=$(crates_of nova_check | wc -l)
same "how far it is" "nova: proving nova_check ($all of $all" "$(grep -o 'nova: proving nova_check ([0-9]* of [0-9]*' "$folder/said")"

: >"$log"
same "a second check" "nova_check check x status 0" "$(run check x | xargs)"
same "proves nothing" "" "$(cat "$log" "$folder/said")"
ln -s "$copy/nova" "$folder/link"
same "by a link" "nova_check explain S1" "$("$folder/link" explain S1)"

edit nv_text lib.rt
same "help waits for nothing" "nova_check --help status 0" "$(run --help | xargs)"
same "and proves nothing" "" "$(cat "$log")"
run check x >/dev/null
same "an edit" "$(above nv_text nova_check)" "$(begun)"

: >"$log"
same "a script wants the whole program" "nova run status 0" "$(run run </dev/null | xargs)"
same "of which the rest is proved" "$(crates_of nova | grep -vxFf <(crates_of nova_check))" "$(begun)"
same "which then checks too" "nova check x status 0" "$(run check x | xargs)"

# A crate that is edited while it is proved is proved again.
: >"$log"
edit nova main.rt
SLOW=nova run run </dev/null >/dev/null &
within says "begin nova" "$log"
edit nova main.rt
: >"$go"
wait
run run </dev/null >/dev/null
same "an edit meanwhile" "nova nova" "$(begun | xargs)"
rm "$go"

# Two runs at once.
: >"$log"
edit nova main.rt
SLOW=nova "$copy/nova" run </dev/null >"$folder/one" 2>/dev/null &
within says "begin nova" "$log"
"$copy/nova" run </dev/null >"$folder/two" 2>"$folder/waits" &
within says "waits for it" "$folder/waits"
same "the second run waits" "nova: another run is building; this one waits for it" "$(cat "$folder/waits")"
: >"$go"
wait
same "and only one proves" "nova" "$(begun)"
same "both answer" "nova run nova run" "$(cat "$folder/one" "$folder/two" | xargs)"
rm "$go"

# An interrupt ends the provers, and keeps what is proved.
: >"$log"
edit nv_script lib.rt
SLOW=nova "$copy/prove.py" nova 2>/dev/null &
within says "begin nova" "$log"
prover=$(cat "$go.pid")
kill "$!"
wait
within ended "$prover"
same "no prover is left" 0 $?
: >"$log"
run run </dev/null >/dev/null
same "what was proved stays" "nova" "$(begun)"

# A crate that isn't proved.
: >"$log"
edit nv_script lib.rt
same "a crate that fails" "status 2" "$(FAILS=nv_script run run </dev/null)"
same "says the clause" "fn why::nv_script: not proved: clause ok" "$(grep '^fn' "$folder/said")"
same "and not all" 0 "$(grep -c chatter "$folder/said")"
same "what was said is kept" 40 "$(grep -c chatter "$copy/crates/nova/out/proved/logs/nv_script")"
same "and nothing above it is proved" "nv_script" "$(begun)"

# Without the kit, a folder of the tools that are needed is all that is on the path.
mkdir "$folder/tools"
for tool in bash env find dirname readlink; do
    ln -s "$(command -v "$tool")" "$folder/tools/"
done
# What is named python3 on the path may be a script that needs further tools.
ln -s "$(python3 -c 'import sys; print(sys.executable)')" "$folder/tools/python3"
same "no kit" "status 2" "$(PATH=$folder/tools run run </dev/null)"
same "what is missing" "nova: the command rt of the Rattle kit isn't on the path; the kit proves and builds the program" "$(cat "$folder/said")"

same "no kit for a try" "status 2" "$(PATH=$folder/tools run try check "$folder/log")"

# A check by the unproved program proves nothing, and answers what that answers.
: >"$log"
echo region >"$folder/an image"
tried="nova_check: rt try --data image=$folder/an image -- check image --workers 4"
same "a try" "$tried status 1" "$(cd "$folder" && TRIED=1 run try check "an image" --workers 4 | xargs)"
same "says that nothing is proved" "nova: nothing of this answer is proved yet: the program runs unproved, by the kit's rt try" "$(head -n 1 "$folder/said")"
same "with the image as the last word" "${tried% -- *} -- check --workers 4 image status 0" "$(cd "$folder" && TRIED=0 run try check --workers 4 "an image" | xargs)"
same "an image that isn't there" "nova_check: rt try -- check none status 2" "$(cd "$folder" && TRIED=2 run try check none | xargs)"
same "a try that fails itself" "status 2" "$(run try check none | tail -n 1)"
same "a try of another command" "status 2" "$(run try run)"
same "says what can be tried" "usage: ./nova try check IMAGE [--workers N] [--summary | --only-faults | --json | --explain | --journal]" "$(cat "$folder/said")"
same "and nothing is proved" "" "$(cat "$log")"

# Words that name no program, and help.
same "no program is named so" "status 1" "$("$copy/prove.py" novel 2>"$folder/said"; echo "status $?")"
same "which ones there are" "nova: no program is named novel; there are nova_c, nova_check, nova, first_program, each_call, refusals, bench" "$(cat "$folder/said")"
same "no words" "status 1" "$("$copy/prove.py" 2>"$folder/said"; echo "status $?")"
same "what to name" "nova: name one program, as in ./prove.py nova; there are nova_c, nova_check, nova, first_program, each_call, refusals, bench" "$(cat "$folder/said")"
same "help" "usage: ./prove.py PROGRAM status 0" "$("$copy/prove.py" --help | grep usage: | xargs) status $?"

# Where all is built, the kit isn't needed, also in a copy whose sources are newer than the build; the verdicts stay.
run run </dev/null >/dev/null
same "the verdicts stay" "logic=proved nova" "$(tail -n 1 "$copy/crates/nova/out/proved/logs/nova")"
cp -r "$copy" "$folder/second"
age "$folder/second"
run_second() {
    PATH=$folder/tools "$folder/second/nova" run </dev/null 2>"$folder/said"
    echo "status $?"
}
same "a copy without the kit" "nova run status 0" "$(run_second | xargs)"
echo '// more' >>"$folder/second/crates/nv_script/src/lib.rt"
same "an edit without the kit" "status 2" "$(run_second)"

close
