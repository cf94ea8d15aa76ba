# usage.sh: what the shell scripts of bench/ share: their arguments, and the crates that a program to be measured stands on.

# wrong TEXT: an error in the arguments
wrong() {
    printf 'bench/%s: %s; --help says what it takes\n' "$(basename -- "$0")" "$1" >&2
    exit 2
}

# take MOST ARGUMENT..: prints the script's head for --help; an option, or more arguments than MOST, are an error
take() {
    most=$1
    shift
    case "${1:-}" in
    -h | --help)
        sed -n '2,/^[^#]/s/^#\{1\} \{0,1\}//p' "$0"
        exit 0
        ;;
    -*) wrong "there is no option $1" ;;
    esac
    [ "$#" -le "$most" ] || wrong "too many arguments"
}

# one_of WORD CHOICE..: an error if the word is none of these
one_of() {
    word=$1
    shift
    for choice; do
        [ "$choice" = "$word" ] && return
    done
    wrong "${word:-nothing} is none of: $*"
}

# put_crates ROOM NAME USED..: makes ROOM a repository with these crates and all below them, and with an empty crate NAME that uses them
put_crates() {
    room=$1 name=$2
    shift 2
    mkdir -p "$room/crates/$name"
    below='import sys; from lib.crates import crates_below, crates_of; uses = crates_of()
print(*dict.fromkeys(it for name in sys.argv[1:] for it in (*crates_below(uses, name), name)))'
    for crate in $(PYTHONPATH="$top/tools" python3 -c "$below" "$@"); do
        cp -R "$top/crates/$crate" "$room/crates/$crate"
        grep "^$crate:" "$top/crates.txt" >>"$room/crates.txt"
    done
    echo "$name: $*" >>"$room/crates.txt"
    cp "$top/HANDLES" "$room/HANDLES"
    git init -q "$room"
}
