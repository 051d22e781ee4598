#!/usr/bin/env bash
# Runs the commands and scripts that README.md and docs/ show on the built program, and compares what they print; and calls
# `reference.py --check`, which compares what they say of the sources. Builds and the gate are left out.
#
#     tests/readme.sh                      prints a line for each difference, and closes with 'N passed, M failed'
#     tests/readme.sh --scripts FOLDER     also keeps the scripts, with what they print and their status, for rows-on-workers.py
#
# In docs/ a block `script` is run by `nova run`, and the block `output` after it is what it prints but for lines `ok`.
# Commands on indented lines print the next block. `man` is left out if it isn't installed.
set -u
source "$(dirname "${BASH_SOURCE[0]}")/parts.sh" || exit 2
program=$built
kept=
if [ "${1-}" = --scripts ] && [ $# -eq 2 ]; then
    mkdir -p "$2" && kept=$(cd "$2" && pwd)
elif [ $# -ne 0 ]; then
    usage
fi
needs_program "$program"
cd "$here" || exit 2

# Writes each case of a document: what is run, its kind, and what it prints.
cases_of() {
    awk -v into="$folder/$2" '
        function begin(what) { number++; name = sprintf("%s-%02d", into, number); kind = what }
        block == "" && /^```script$/ { begin("script"); block = "run"; printf "" > (name ".run"); next }
        block == "" && /^```/ { block = (name != "" && !done[name]) ? "out" : "skip"; if (block == "out") { done[name] = 1; printf "" > (name ".out"); print kind > (name ".kind") } next }
        block != "" && /^```$/ { block = ""; next }
        block == "run" { print > (name ".run"); next }
        block == "out" { print > (name ".out"); next }
        block == "skip" { next }
        /^    (head [^|]*\| \.\/nova run|\.\/nova (run|shell|check|mkfs|clean|ls|du|stat|cat|tar|log|block|diff|map|explain|recover|mkdir|rm|rmdir|mv|ln|truncate|chmod|chown|put|untar) [a-z<]|od )/ { if (!within) begin("command"); within = 1; sub(/^    /, ""); print > (name ".run"); next }
        { within = 0 }
    ' "$1"
}

# Commands are run here, so that the files that they write go with it.
room=$folder/room
mkdir "$room"
ln -s "$here"/* "$room/"
for document in README.md docs/*.md; do
    cases_of "$document" "$(basename "$document" .md)"
done
for kind in "$folder"/*.kind; do
    name=${kind%.kind}
    title="$(basename "$name"): $(head -n 1 "$name.run")"
    if [ "$(cat "$kind")" = script ]; then
        "$program" run <"$name.run" >"$name.whole" 2>/dev/null
        status=$?
        same "$title" "$(cat "$name.out")" "$(grep -vx ok "$name.whole")"
        if [ -n "$kept" ]; then
            cp "$name.run" "$kept/$(basename "$name").script"
            cp "$name.whole" "$kept/$(basename "$name").expected"
            echo "$status" >"$kept/$(basename "$name").status"
        fi
    else
        same "$title" "$(cat "$name.out")" "$(cd "$room" && sed "s#\(^\|| \)\./nova #\1'$program' #" "$name.run" | bash 2>&1)"
    fi
done

# Statuses that README.md has.
"$program" run <examples/first.nova >/dev/null
same "status of the first example" 0 $?
"$program" check examples/ring.img >/dev/null
same "status of examples/ring.img" 1 $?
for words in "check --help" "run --help" "--help" ""; do
    # shellcheck disable=SC2086
    "$program" $words >"$folder/said" 2>"$folder/help"
    same "status of nova $words" 2 $?
    same "standard output of nova $words" "" "$(cat "$folder/said")"
done
for command in run shell check mkfs clean ls du stat cat tar log block diff map explain mkdir rm rmdir mv ln truncate chmod chown put untar recover; do
    same "usage of nova $command" "Usage: nova $command" "$("$program" $command --help 2>&1 | grep -o "^Usage: nova $command")"
    # The page has what the help says of the command and of its arguments.
    while IFS= read -r line; do
        grep -qF -- "$line" docs/nova.1
        same "docs/nova.1: $line" 0 $?
    done < <("$program" $command --help 2>&1 | sed -nE '1p; s/^ +(-[^ ]+|<[a-z]+>|\[[a-z]+\])(\.\.\.| <[a-z]+>)?  +//p' | grep -v '^Print help')
done

# The version, on standard output; and the help of a command, asked for in the other way.
for word in --version -V; do
    same "nova $word" "$(sed -n 's/^pub const VERSION: &str = "\(.*\)";$/\1/p' crates/nv_args/src/version.rt | sed 's/\\n/\n/')" "$("$program" $word 2>/dev/null)"
    "$program" $word >/dev/null
    same "status of nova $word" 0 $?
done
if command -v rt >/dev/null; then
    same "the logic of the version" "proved by $(rt version </dev/null | grep -o 'logic [0-9a-f]*')" "$("$program" -V | tail -n 1)"
fi
same "nova help" "$("$program" --help 2>&1)" "$("$program" help 2>&1)"
same "nova help check" "$("$program" check --help 2>&1)" "$("$program" help check 2>&1)"

# The completions of bash are made from the help, and complete commands, options, classes and files.
same "docs/nova.bash" "$(tests/completions.py "$program")" "$(cat docs/nova.bash)"
completed() {
    bash -c 'source docs/nova.bash; COMP_WORDS=("$@"); COMP_CWORD=$(($# - 1)); _nova; printf "%s\n" "${COMPREPLY[@]}"' bash "$@" | sort | xargs
}
same "completions of ma" map "$(completed nova ma)"
same "completions of an option" "--summary" "$(completed nova check d.img --s)"
same "completions of a class" "L1 L2 L3 L4" "$(completed nova explain L)"
same "completions of a file" "examples/first.nova" "$(completed nova run examples/fi)"
same "completions of a number" "" "$(completed nova check --workers "")"

# What `nova explain` says of each class stands in docs/FAULTS.md: its title, and what it means.
sections=$(tr -d '`' <docs/FAULTS.md)
classes=$("$program" explain none 2>&1 | sed -n 's/^the classes are //p')
same "the classes of docs/FAULTS.md" "$(sed -nE 's/^(## )([A-Z][0-9]): .*/\2/p; s/^(\| )(S[0-9]) .*/\2/p' docs/FAULTS.md | tr '\n' ' ')" "$classes "
for class in $classes; do
    said=$("$program" explain "$class")
    title=${said%%$'\n'*}
    meaning=${said#*$'\n'}
    case $class in
        S*) found=$(grep -xF "| $class | ${title#*: } |" <<<"$sections" | sed 's/^| \(S.\) | /\1: /; s/ |$//') ;;
        *) found=$(grep -xF "## $title" <<<"$sections" | sed 's/^## //') ;;
    esac
    same "docs/FAULTS.md: the title of $class" "$title" "$found"
    grep -qF -- "$meaning" <<<"$sections"
    same "docs/FAULTS.md: the meaning of $class" 0 $?
    same "nova explain ${class,,}" "$said" "$("$program" explain "${class,,}")"
done

# Some systems have a program of this name that only says that there are no pages.
if man --version 2>/dev/null </dev/null | grep -q '^man [0-9]'; then
    same "man ./docs/nova.1" "NOVA(1)" "$(man ./docs/nova.1 2>/dev/null | head -n 1 | grep -o '^NOVA(1)')"
else
    echo "left out: man isn't installed"
fi

# block_of DOCUMENT NUMBER: a block of code of a document, of those from its first program in Rust on, which is number 1.
block_of() {
    awk -v wanted="$2" '
        /^```/ { open = !open; if (open && (number || /rust/)) number++; next }
        open && number == wanted
    ' "$1"
}

# The program that README.md and docs/LIBRARY.md show is a crate, which the gate proves and runs. Nobody wrote proofs of it.
first=crates/first_program
same "the program of README.md" "$(cat "$first/src/main.rt")" "$(block_of README.md 1)"
same "what the program of README.md prints" "$(cat "$first/stdout")" "$(block_of README.md 2)"
same "the program of docs/LIBRARY.md" "$(cat "$first/src/main.rt")" "$(block_of docs/LIBRARY.md 1)"
same "the proofs of the first program" "" "$(ls "$first/proofs" 2>/dev/null)"

if command -v rt >/dev/null; then
    # A kit of another name with the same logic proves the same.
    same "the logic of README.md's kit" "$(rt version </dev/null | grep -o 'logic [0-9a-f]*')" "$(grep '^| evidence, with ' README.md | grep -o 'logic [0-9a-f]*')"
fi

# What README.md and docs/ say of the sources: links, quoted clauses and names, fault classes, numbers, the pages of crates.
compared=$(tests/reference.py --check)
grep -v ' passed, ' <<<"$compared"
count "$(sed -n 's/^\([0-9]*\) passed, .*/\1/p' <<<"$compared")" "$(sed -n 's/.* passed, \([0-9]*\) failed$/\1/p' <<<"$compared")"

close
