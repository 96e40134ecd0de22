# The words of the script `hydroplan`: whether they are plainly a run of the program, and the file that is its standard input. The package
# judges all others, by the table in bin/commands.txt; tests/script compares both.

# Puts the words without `--problem FILE` into `words`, this FILE into `problem`, and how many such there are into `files`. Fails where there
# are more than one, or one that is of no use.
take_problem() {
    words=() problem='' files=0
    while [ $# -gt 0 ]; do
        case "$1" in
        --problem)
            [ $# -gt 1 ] || return 1
            problem=$2 files=$((files + 1))
            shift
            ;;
        --problem=*) problem=${1#*=} files=$((files + 1)) ;;
        *) words+=("$1") ;;
        esac
        shift
    done
    case "$files ${words[0]-}" in
    "1 gen" | "1 --version") return 1 ;;
    "0 "* | "1 "*) ;;
    *) return 1 ;;
    esac
}

# Whether a word is a number that is read, from the second to the third word; they have at most seven digits.
is_count() { [[ $1 =~ ^(0|[123456789][0123456789]{0,6})$ ]] && [ "$1" -ge "$2" ] && [ "$1" -le "$3" ]; }

# Whether a word is a number that 64 bits hold, without a sign and without a leading zero.
is_seed() {
    [[ $1 =~ ^(0|[123456789][0123456789]{0,19})$ ]] || return 1
    # shellcheck disable=SC2071  # texts of one length are in the order of their numbers, which bash does not hold
    [ ${#1} -lt 20 ] || [[ ! $1 > 18446744073709551615 ]]
}

# Whether words are of a form that the program reads.
are_good() {
    case "${1-} $#" in
    "base 1" | "hydro 1" | "--version 1") ;;
    "check 2" | "validate 2" | "evaluate 2" | "robust 2") [ -n "$2" ] && ! is_help "$2" ;;
    "train 4") [ -n "$2" ] && is_seed "$3" && is_count "$4" 0 2000 ;;
    "train 5") [ -n "$2" ] && is_seed "$3" && is_count "$4" 0 2000 && is_count "$5" 1 64 ;;
    "simulate 4") [ -n "$2" ] && is_seed "$3" && is_count "$4" 0 1000 ;;
    "gen 4") is_seed "$2" && is_count "$3" 1 500 && is_count "$4" 1 10 ;;
    *) false ;;
    esac
}

# Whether a word is one of those that ask for help.
is_help() { [ "$1" = -h ] || [ "$1" = --help ]; }

# Whether words ask for help on all commands, or on one that is no tool, which has a help of its own.
asks_for_help() {
    case "$# ${1-}" in
    "1 help" | "1 -h" | "1 --help" | "2 help" | "2 -h" | "2 --help") ;;
    2\ *) is_help "$2" && [ "$1" != --unproved ] && ! is_tool "$1" ;;
    *) false ;;
    esac
}

# Prints what one command takes and prints, or what the program says of itself and the words of the script and the tools. Returns where
# there is no such command.
show_help() {
    local text word=$1
    if [ $# = 2 ]; then
        is_help "$2" || word=$2
        text=$(awk -v word="$word" '/^[^ ]/ { shown = $1 == word && !/ = / } shown' "$bin/commands.txt")
        [ -n "$text" ] || return 0
        printf '%s\n' "$text"
        exit 0
    fi
    choose_program
    "$program" --help
    printf '\nWords of the script ./hydroplan, and the tools beside the program:\n\n'
    awk '
        FNR == NR && $1 == "tool" && $3 == "=" { wanted[$2] }
        FNR == NR && ($1 == "script" || $1 == "options") && $2 == "=" { for (at = 3; at <= NF; at++) wanted[$at] }
        FNR == NR { next }
        /^[^ ]/ { shown = $1 in wanted && !/ = / }
        shown' "$bin/commands.txt" "$bin/commands.txt"
    exit 0
}

# Whether the table of words has a tool of this name.
is_tool() {
    local line
    while IFS= read -r line; do
        case "$line" in
        "tool $1 = "*) return 0 ;;
        esac
    done < "$top/bin/commands.txt"
    return 1
}

# Opens a file as standard input, or says why it cannot be opened.
open_problem() {
    if { exec < "$1"; } 2> /dev/null; then return; fi
    give_up "cannot open $1: $(reason_of "$1")"
}

# Prints why a file cannot be opened.
reason_of() {
    local reason
    reason=$(export LC_ALL=C; { : < "$1"; } 2>&1) || true
    printf '%s' "${reason##*: }"
}

# Says, behind status 10, why a journal that is only read cannot be opened, where that is so.
tell_of_journal() {
    case "$1" in
    train) ;;
    *) if [ ! -e "$2" ] || { [ -f "$2" ] && [ ! -r "$2" ]; }; then say "cannot open $2: $(reason_of "$2")"; fi ;;
    esac
}

# Says, where standard input is a terminal, that a command waits there for what it reads.
tell_of_terminal() {
    [ -t 0 ] || return 0
    case "$1" in
    gen | --version) ;;
    hydro) say "waiting for a description of hydro plants on standard input: --problem FILE reads it from a file" ;;
    *) say "waiting for a problem on standard input: --problem FILE reads it from a file" ;;
    esac
}

# Takes the folder that the script is called from off PYTHONPATH, where an empty name means it, so that no file there comes in the place of a
# module of Python.
leave_out_this_folder() {
    local folder folders kept_folders=''
    [ -n "${PYTHONPATH-}" ] || return 0
    IFS=: read -ra folders <<< "$PYTHONPATH"
    for folder in "${folders[@]}"; do
        case "$folder" in
        '' | . | ./) ;;
        *) kept_folders="$kept_folders${kept_folders:+:}$folder" ;;
        esac
    done
    export PYTHONPATH=$kept_folders
}
