# Completions of bash for nova; source this file. tests/completions.py makes it from the help of the program.
_nova() {
    local word=${COMP_WORDS[COMP_CWORD]} before=${COMP_WORDS[COMP_CWORD - 1]} words=
    COMPREPLY=()
    if [ "$COMP_CWORD" -eq 1 ]; then
        words="run shell check mkfs clean ls stat cat du tar log block diff explain map mkdir rm rmdir mv ln truncate chmod chown put untar recover help --help --version"
    else
        case ${COMP_WORDS[1]} in
            run) words="--image --save --force --strict --help" ;;
            shell) words="--force --help" ;;
            check) words="--workers --summary --only-faults --json --explain --journal --help" ;;
            mkfs) words="--blocks --cpus --tables --size --layout --force --help" ;;
            clean) words="--help" ;;
            ls) words="--long --recursive --help" ;;
            stat) words="--help" ;;
            cat) words="--help" ;;
            du) words="--help" ;;
            tar) words="--lost-found --help" ;;
            log) words="--all --help" ;;
            block) words="--hex --help" ;;
            diff) words="--help" ;;
            explain) words="J1 J2 H1 H2 I1 I2 I3 L1 L2 L3 L4 E1 E2 E3 E4 C1 C2 C3 C4 C5 B1 S1 S2 S3 S4 S5 S6 S7 --help" ;;
            map) words="--svg --force --help" ;;
            mkdir) words="--cpu --time --help" ;;
            rm) words="--cpu --time --help" ;;
            rmdir) words="--cpu --time --help" ;;
            mv) words="--cpu --time --help" ;;
            ln) words="--cpu --time --help" ;;
            truncate) words="--cpu --time --help" ;;
            chmod) words="--cpu --time --help" ;;
            chown) words="--cpu --time --help" ;;
            put) words="--recursive --cpu --time --help" ;;
            untar) words="--cpu --help" ;;
            recover) words="--dry-run --help" ;;
            help) words="run shell check mkfs clean ls stat cat du tar log block diff explain map mkdir rm rmdir mv ln truncate chmod chown put untar recover" ;;
        esac
    fi
    # A number is written by hand, and everything else may be a file.
    case $before in
        --blocks | --cpu | --cpus | --layout | --size | --tables | --time | --workers) return ;;
    esac
    mapfile -t COMPREPLY < <(compgen -W "$words" -- "$word")
    if [ "$COMP_CWORD" -gt 1 ]; then
        mapfile -t -O "${#COMPREPLY[@]}" COMPREPLY < <(compgen -f -- "$word")
    fi
}
complete -o filenames -F _nova nova ./nova
