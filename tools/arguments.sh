# shellcheck shell=bash
# The arguments of a command, by what its help lists, before anything is built. To be sourced after tools/build.sh, with the command's
# name in `command` and the folder in which it was called in `start`.
#
# Each option and operand is an item of the section OPTIONS: `--csv`, `--edition N`, `--merge FILE...`, which may be given more than
# once, `INDEX`, or `TRACE (FILE)`, an operand that is a file. SYNOPSIS has in square brackets what may be left out. The programs in
# Rust read their help in the same way (rust/src/bin/shared/arguments.rs).

: "${command?}" "${start?}"

# The arguments that are given, by the names of their items.
declare -A given=()

# The file with the help of a command; none, if there is no such command.
help_of() {
    local file
    for file in "tools/help/$1.txt" "rust/src/bin/draugsten-$1/usage.txt" "$1/usage.txt"; do
        [[ ! -e $file ]] || { echo "$file" && return; }
    done
}

# Says what is wrong with the arguments, as the command's program would, and ends.
wrong() {
    echo "draugsten-$command: $*" >&2
    echo "./draugsten $command --help prints its arguments" >&2
    exit 2
}

# A word of the user in one line: control characters and the backslash as \xNN.
shown() {
    local text=$1 out='' next
    while [[ $text ]]; do
        next=${text:0:1} text=${text:1}
        case $next in
            [[:cntrl:]\\]) printf -v next '\\x%02x' "'$next" ;;
        esac
        out+=$next
    done
    printf '%s' "$out"
}

# The lines of a section of a help, without their indentation by two.
section() {
    awk -v name="$2" '/^[A-Z]/ { on = $0 == name } on && /^  / { sub(/^  /, ""); print }' "$1"
}

# What SYNOPSIS has outside of square brackets, an item or some in round brackets to a line.
needed() {
    section "$1" SYNOPSIS | tr '\n' ' ' | sed 's/\[[^]]*\]//g; s|^\./draugsten [a-z-]*||' | grep -oE '\([^)]*\)|--[a-z-]+( [A-Z]+)?|[A-Z]+' || true
}

# Takes an option, whose value is the word after an equals sign or the next one; `used` is the number of words that it takes.
take_option() {
    local name=${1%%=*} value
    used=1
    [[ $name =~ ^--[a-z-]+$ && -v values[$name] ]] || wrong "unknown argument $(shown "$1")"
    if [[ ! ${values[$name]} ]]; then
        [[ $1 == "$name" ]] || wrong "$name takes no value, and was given $(shown "${1#*=}")"
        give "$name" ''
        return
    fi
    if [[ $1 == *=* ]]; then
        value=${1#*=}
    else
        [[ $# -gt 1 ]] || wrong "$name needs a value after it"
        value=$2 used=2
    fi
    give "$name" "$value"
}

take_operand() {
    [[ ${#operands[@]} -gt 0 ]] || wrong "$(shown "$1") is one argument too many"
    give "${operands[0]}" "$1"
    operands=("${operands[@]:1}")
}

# Notes that an item is given, and its file, if it is one.
give() {
    local kind=${values[$1]-}
    [[ ! -v given[$1] || $kind == *... ]] || wrong "$1 is given twice"
    given[$1]=$2
    [[ $kind == FILE* ]] || return 0
    [[ $2 ]] || wrong "$1 names no file"
    [[ $2 == - && $1 != --* ]] || files+=("$1" "$2")
}

# Whether one of some items is given, which stand as `--memory FILE | --memory-size BYTES`.
has_one() {
    local item
    while IFS= read -r item; do
        [[ ! -v given[${item%% *}] ]] || return 0
    done <<<"${1// | /$'\n'}"
    return 1
}

# Ends if a needed item is not given.
check_needed() {
    local group
    while IFS= read -r group; do
        group=${group//[()]/}
        has_one "$group" || wrong "${group// | / or } has to be given"
    done < <(needed "$1")
}

# Ends if a file cannot be read. Names are relative to the folder in which the command was called.
check_files() {
    local path why
    while [[ $# -gt 0 ]]; do
        path=$2 why=
        [[ $path == /* ]] || path=$start/$path
        if [[ ! -e $path ]]; then
            why='there is no such file; check the name'
        elif [[ -d $path ]]; then
            why='it is a folder; name a file'
        elif [[ ! -r $path ]]; then
            why='ask for the right to read it'
        fi
        [[ ! $why ]] || { echo "draugsten-$command: $1 $(shown "$2") cannot be read: $why" >&2 && exit 1; }
        shift 2
    done
}

# Reads the items of a help: of each what its value is, into `values`, and the names of the operands.
read_items() {
    local name kind
    while read -r name kind; do
        values[$name]=${kind//[()]/}
        [[ $name == --* ]] || operands+=("$name")
    done < <(section "$1" OPTIONS | grep -E '^(--[a-z-]+|[A-Z]+)( |$)')
}

# Reads the arguments of the command into `given`. Ends if help is asked for, which it prints, if they are
# wrong, or if a file is missing.
read_arguments() {
    local help used ended='' files=() operands=()
    local -A values=()
    help=$(help_of "$command")
    read_items "$help"
    while [[ $# -gt 0 ]]; do
        used=1
        case $ended$1 in
            --help | -h) cat "$help" || fail 'standard output cannot be written whole; make room, or write to another file'; exit ;;
            --) ended=ended ;;
            -[!0-9]*) take_option "$@" ;;
            *) take_operand "$1" ;;
        esac
        shift "$used"
    done
    check_needed "$help"
    check_files "${files[@]}"
}
