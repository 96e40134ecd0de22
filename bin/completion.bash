# Completes the words of hydroplan in bash: source bin/completion.bash
# Made of bin/commands.txt by bin/write-pages; a change here is lost.

# Puts into `reply` what may stand behind a command, so many words, and the first of them.
_hydroplan_words() {
    case "$1 $2 $3" in
    "base 0 "*) reply="--problem -h --help" ;;
    "train 0 "*) reply="FILE --problem --workers --scheduler --timeout -h --help" ;;
    "train 1 "*) reply="--problem --workers --scheduler --timeout" ;;
    "train 2 "*) reply="--problem --workers --scheduler --timeout" ;;
    "train 3 "*) reply="--problem --workers --scheduler --timeout" ;;
    "train 4 "*) reply="--problem --workers --scheduler --timeout" ;;
    "check 0 "*) reply="FILE --problem -h --help" ;;
    "check 1 "*) reply="--problem" ;;
    "simulate 0 "*) reply="FILE --problem --workers --scheduler --timeout -h --help" ;;
    "simulate 1 "*) reply="--problem --workers --scheduler --timeout" ;;
    "simulate 2 "*) reply="--problem --workers --scheduler --timeout" ;;
    "simulate 3 "*) reply="--problem --workers --scheduler --timeout" ;;
    "validate 0 "*) reply="FILE --problem -h --help" ;;
    "validate 1 "*) reply="--problem" ;;
    "evaluate 0 "*) reply="FILE --problem -h --help" ;;
    "evaluate 1 "*) reply="--problem" ;;
    "robust 0 "*) reply="FILE --problem -h --help" ;;
    "robust 1 "*) reply="--problem" ;;
    "hydro 0 "*) reply="--problem -h --help" ;;
    "gen 0 "*) reply="-h --help" ;;
    "gen 1 "*) reply="" ;;
    "gen 2 "*) reply="" ;;
    "gen 3 "*) reply="" ;;
    "study "*) reply="FILE --check --set --quiet -h --help" ;;
    "report "*) reply="FILE -h --help" ;;
    "export "*) reply="FILE --what --to --number --scenario --each-scenario --by-block --separator --decimal -h --help" ;;
    "join "*) reply="FILE --problem --batch -h --help" ;;
    "convert "*" problem") reply="FILE -h --help --output --write-scales --scales --bounds --negate-max --normalise --largest --tolerance --successor-total --ledger" ;;
    "convert "*" back") reply="FILE -h --help --scales --digits --exact" ;;
    "convert "*) reply="problem back -h --help" ;;
    "explain "*) reply="FILE -h --help --line --keys" ;;
    "plot "*" bounds") reply="FILE -h --help --output --title --cost" ;;
    "plot "*" water-values") reply="FILE -h --help --output --title --at --state --problem" ;;
    "plot "*" storage") reply="FILE -h --help --output --title" ;;
    "plot "*" residuals") reply="FILE -h --help --output --title" ;;
    "plot "*) reply="bounds water-values storage residuals -h --help" ;;
    "watch "*) reply="FILE -h --help --program --every --until --once --last --scales" ;;
    "help 0 "* | "-h 0 "* | "--help 0 "*) reply="base train check simulate validate evaluate robust hydro gen study report export join --workers --scheduler --timeout --problem help prove --unproved convert explain plot watch" ;;
    "--unproved 0 "*) reply="base train check simulate validate evaluate robust hydro gen" ;;
    esac
}

# Puts into `reply` what may stand at the place of the word that is typed: FILE for the name of a file, and words.
_hydroplan_reply() {
    local at=1 place=0 command='' first=''
    while [ "$at" -lt "$COMP_CWORD" ]; do
        case "${COMP_WORDS[at]}" in
        --problem | --workers | --scheduler | --timeout) at=$((at + 1)) ;;
        *)
            if [ -z "$command" ]; then command=${COMP_WORDS[at]}
            elif [[ ${COMP_WORDS[at]} != -* ]]; then place=$((place + 1)) first=${first:-${COMP_WORDS[at]}}
            fi
            ;;
        esac
        at=$((at + 1))
    done
    if [ "${COMP_WORDS[COMP_CWORD - 1]}" = --problem ]; then reply=FILE
    elif [[ ${COMP_WORDS[COMP_CWORD - 1]} =~ ^(--workers|--scheduler|--timeout)$ ]]; then reply=''
    elif [ -z "$command" ]; then reply="base train check simulate validate evaluate robust hydro gen study report export join --workers --scheduler --timeout --problem help prove --unproved convert explain plot watch -h --help -V --version"
    else _hydroplan_words "$command" "$place" "$first"
    fi
}

_hydroplan() {
    local word=${COMP_WORDS[COMP_CWORD]} reply=''
    _hydroplan_reply
    case "$reply" in
    FILE*) mapfile -t COMPREPLY < <(compgen -f -- "$word"; compgen -W "${reply#FILE}" -- "$word") ;;
    *) mapfile -t COMPREPLY < <(compgen -W "$reply" -- "$word") ;;
    esac
}

complete -o filenames -F _hydroplan hydroplan
