#!/bin/bash
# Runs a program on face files: bash tools/faces.sh [-p PROGRAM] [FILE ...]
#
# PROGRAM is faces where it is not given, which prints the smallest face of a file; material prints the material sheet
# of that face. Any program of crates/ may be named that reads a face file from standard input and prints a text, or one
# line `refused N`.
#
# Standard input is read where no file is named, and where one is `-`. With several files each line has the file's name
# and a colon before it, as grep prints it. A file whose name begins with a dash is named after `--`; -h and --help
# print these lines. The exit status is the largest that a file has:
#
#     0   its text is printed
#     1   it is refused, and the line of its check is printed
#     2   it was not read, or its text was not written, or there is no such program or option: standard error says why
#
# The program is proved and built first where it is not there.
root=$(cd "$(dirname "$0")/.." && pwd)

# Says what is wrong with how the command is used, and ends it.
stop() {
    echo "faces.sh: $1" >&2
    exit 2
}

# Prints the lines at the top of this file.
print_help() {
    sed -n '2,/^[^#]/s/^# \{0,1\}//p' "$0"
}

# Prints the text of a file; with several files each line has the name.
print_text() { # TEXT NAME
    if [ ! "$several" ]; then
        printf '%s\n' "$1"
        return
    fi
    while IFS= read -r line; do
        printf '%s:%s\n' "$2" "$line" || return
    done <<<"$1"
}

# What the program prints for a file. Standard input that is closed is closed again: within $(...) bash may have given
# its number to a pipe.
text_of() {
    if [ "$1" != - ]; then
        "$binary" <"$1"
    elif [ "$closed" ]; then
        "$binary" <&-
    else
        "$binary"
    fi
}

# Says why a file was not read or written. The reason is in $errors, after the last colon of what the program said, or
# the shell where it could not open the file. The program has the system's number behind it.
tell() { # NAME
    local reason
    reason=$(<"$errors")
    reason=${reason##*: }
    reason=${reason% (os error *}
    echo "$program: $1: ${reason:-no answer}" >&2
}

# Prints the text of a file and answers its status. Where a text cannot be written, no other can.
show_file() {
    local name=$1 label=$1 text status=0
    [ "$1" != - ] || { name="standard input" && label="(standard input)"; }
    text=$(text_of "$1" 2>"$errors")
    if [ -z "$text" ]; then
        tell "$name"
        return 2
    fi
    cat "$errors" >&2
    case $text in "refused "*) status=1 ;; esac
    print_text "$text" "$label" 2>"$errors" || { tell "standard output" && exit 2; }
    return $status
}

program=faces
while [ $# -gt 0 ]; do
    case $1 in
    -p)
        [ $# -ge 2 ] || stop "-p needs the name of a program, such as -p material"
        program=$2
        shift 2
        ;;
    -h | --help)
        print_help
        exit $(($? ? 2 : 0))
        ;;
    --)
        shift
        break
        ;;
    -?*) stop "$1: no such option; --help shows them, and a file of this name is named after --" ;;
    *) break ;;
    esac
done

binary=$root/crates/$program/out/$program
[ -f "$root/crates/$program/src/main.rt" ] ||
    stop "$program: no such program; name one that has crates/PROGRAM/src/main.rt, such as faces or material"
# rt runs what it has built: here on nothing, and what it prints is let go. Its status may then be the program's own.
[ -x "$binary" ] || (cd "$root/crates/$program" && rt run) >/dev/null </dev/null || [ -x "$binary" ] ||
    stop "$program: not proved and built; rt run in crates/$program says why"
errors=$(mktemp) || exit 2
trap 'rm -f "$errors"' EXIT

closed=
[ -e /dev/fd/0 ] || closed=yes
[ $# -gt 0 ] || set -- -
several=
[ $# -eq 1 ] || several=yes
worst=0
for file in "$@"; do
    show_file "$file"
    status=$?
    [ $status -le $worst ] || worst=$status
done
exit $worst
