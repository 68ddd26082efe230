#!/bin/bash
# Tries the programs faces and material, tools/faces.sh and tools/face.py, above all where something is wrong with what
# they are given or with reading and writing: bash tools/test_faces.sh
#
# It says of each case whether it passed. Its last line is 'N passed, M failed', and it exits 1 where M is not 0. Reads
# and writes that fail on purpose come from a small C library that it compiles with gcc and loads before C's own. One
# case, a file without permission, is left out for a user who may read every file.
root=$(cd "$(dirname "$0")/.." && pwd)
cd "$root" || exit 1
for program in faces material; do
    [ -x crates/$program/out/$program ] || (cd crates/$program && rt run) >/dev/null </dev/null || exit 1
done
work=$(mktemp -d)
trap 'rm -rf "$work"' EXIT
passed=0
failed=0

# read and write of descriptors 0 and 1, but that:
#   READ_FAILS=N    a read fails once N bytes were read      READ_MOST=N    a read gives at most N bytes
#   WRITE_FAILS=N   a write fails once N bytes were written  WRITE_MOST=N   a write takes at most N bytes
#   INTERRUPTS=N    of the first 2N calls of read every other is interrupted
cat >"$work/faults.c" <<'C'
#define _GNU_SOURCE
#include <dlfcn.h>
#include <errno.h>
#include <stdlib.h>
#include <unistd.h>

static long setting(const char *name, long otherwise) {
    const char *text = getenv(name);
    return text ? atol(text) : otherwise;
}

/* How many of n bytes a call may move that has moved so many before; 0 where it fails. */
static size_t allowed(size_t n, long before, const char *fails, const char *most) {
    long left = setting(fails, 1L << 40) - before;
    long part = setting(most, 1L << 40);
    if (part < left) left = part;
    return (long)n < left ? n : (size_t)left;
}

ssize_t read(int fd, void *bytes, size_t n) {
    static long before, calls;
    ssize_t (*next)(int, void *, size_t) = dlsym(RTLD_NEXT, "read");
    if (fd != 0) return next(fd, bytes, n);
    if (calls++ % 2 == 0 && calls < 2 * setting("INTERRUPTS", 0)) {
        errno = EINTR;
        return -1;
    }
    size_t part = allowed(n, before, "READ_FAILS", "READ_MOST");
    if (part == 0) {
        errno = EIO;
        return -1;
    }
    ssize_t got = next(fd, bytes, part);
    if (got > 0) before += got;
    return got;
}

ssize_t write(int fd, const void *bytes, size_t n) {
    static long before;
    ssize_t (*next)(int, const void *, size_t) = dlsym(RTLD_NEXT, "write");
    if (fd != 1) return next(fd, bytes, n);
    size_t part = allowed(n, before, "WRITE_FAILS", "WRITE_MOST");
    if (part == 0) {
        errno = EIO;
        return -1;
    }
    ssize_t put = next(fd, bytes, part);
    if (put > 0) before += put;
    return put;
}
C
gcc -shared -fPIC -o "$work/faults.so" "$work/faults.c" -ldl || exit 1

# The files: document 01's example with its text and its sheet, the largest face, one of rows and piles, a file longer
# than what is read, a refused one.
example=crates/faces/data/example
cat >"$work/example.text" <<'T'
faces 3
60 70
50 90
40 110
best 60 70 4200
gauge 1 size 1 at 0 0
gauge 2 size 1 at 40 0
T
cat >"$work/example.sheet" <<'T'
1 40 60 2400
2 30 50 1500
used 3900
blank 300
face 4200
T
largest=crates/faces/stdin
mixed=crates/material/stdin
longer=crates/faces_long/stdin
head -c 20 "$example" >"$work/short"
echo "refused 5" >"$work/short.text"
sed "s|^|$example:|" "$work/example.text" >"$work/both.text"
sed "s|^|$work/short:|" "$work/short.text" >>"$work/both.text"
sed "s|^|(standard input):|" "$work/example.text" >"$work/dash.text"
cat "$work/both.text" >>"$work/dash.text"
: >"$work/nothing"

# tried NAME STATUS TEXT WORDS COMMAND: runs a shell command, whose standard output has to be the file TEXT unless that is
# -, whose standard error has to have WORDS in it, or be empty where they are, and whose status has to be STATUS.
tried() {
    local said=pass
    F="$work/faults.so" EXAMPLE=$example LARGEST=$largest MIXED=$mixed LONGER=$longer WORK=$work timeout 60 \
        bash -c "$5" >"$work/out" 2>"$work/err"
    local status=$?
    [ "$status" = "$2" ] || said="fail: status $status"
    [ "$3" = - ] || cmp -s "$work/out" "$3" || said="fail: other text"
    if [ -z "$4" ]; then
        [ ! -s "$work/err" ] || said="fail: $(head -1 "$work/err")"
    else
        grep -qF -- "$4" "$work/err" || said="fail: standard error has $(head -1 "$work/err")"
    fi
    if [ "$said" = pass ]; then passed=$((passed + 1)); else failed=$((failed + 1)); fi
    echo "$1: $said"
}

# told NAME STATUS LINE COMMAND: runs a shell command that has to print this line to standard error, and nothing else.
# The two outputs change places for it.
told() {
    echo "$3" >"$work/line"
    tried "$1" "$2" "$work/line" "" "{ $4; } 3>&1 1>&2 2>&3 3>&-"
}

# A shell command with reads or writes that fail.
faulty='LD_PRELOAD=$F crates/faces/out/faces'
input='faces: standard input:'
output='faces: standard output:'

echo "The program faces:"
tried "document 01's example" 0 "$work/example.text" "" 'crates/faces/out/faces <$EXAMPLE'
tried "the largest face" 0 crates/faces/stdout "" 'crates/faces/out/faces <$LARGEST'
tried "a file longer than what is read" 0 crates/faces_long/stdout "" 'crates/faces/out/faces <$LONGER'
tried "a face in pieces through a pipe" 0 "$work/example.text" "" \
    '(head -c 9 $EXAMPLE; sleep 0.2; tail -c +10 $EXAMPLE) | crates/faces/out/faces'
tried "a face byte by byte" 0 crates/faces/stdout "" "READ_MOST=1 $faulty <\$LARGEST"
tried "a pipe that never ends" 0 crates/faces_long/stdout "" '(cat $LARGEST; cat /dev/zero) | crates/faces/out/faces'
tried "a read that is interrupted" 0 "$work/example.text" "" "INTERRUPTS=3 READ_MOST=10 $faulty <\$EXAMPLE"
tried "standard input closed" 1 "$work/nothing" "$input Bad file descriptor" 'crates/faces/out/faces <&-'
tried "a directory" 1 "$work/nothing" "$input Is a directory" 'crates/faces/out/faces <crates'
tried "a read that fails at once" 1 "$work/nothing" "$input Input/output error" "READ_FAILS=0 $faulty <\$EXAMPLE"
tried "a read that fails after 20 bytes" 1 "$work/nothing" "$input Input/output error" "READ_FAILS=20 $faulty <\$EXAMPLE"
tried "a read that fails after a whole face" 1 "$work/nothing" "$input Input/output error" "READ_FAILS=28 $faulty <\$EXAMPLE"
tried "a read that would fail after 4,096 bytes" 0 crates/faces_long/stdout "" "READ_FAILS=4096 $faulty <\$LONGER"
tried "a full disk" 1 - "$output No space left on device" 'crates/faces/out/faces <$EXAMPLE >/dev/full'
tried "standard output closed" 1 - "$output Bad file descriptor" 'crates/faces/out/faces <$EXAMPLE >&-'
tried "a write in pieces" 0 crates/faces/stdout "" "WRITE_MOST=100 $faulty <\$LARGEST"
tried "a write that fails after 100 bytes" 1 - "$output Input/output error" "WRITE_FAILS=100 $faulty <\$LARGEST"

echo "The program material:"
faulty='LD_PRELOAD=$F crates/material/out/material'
input='material: standard input:'
output='material: standard output:'
tried "document 01's example" 0 "$work/example.sheet" "" 'crates/material/out/material <$EXAMPLE'
tried "a face of 64 gauges" 0 crates/material/stdout "" 'crates/material/out/material <$MIXED'
tried "a refused file" 0 "$work/short.text" "" 'crates/material/out/material <$WORK/short'
tried "a file longer than what is read" 0 crates/faces_long/stdout "" 'crates/material/out/material <$LONGER'
tried "a face byte by byte" 0 crates/material/stdout "" "READ_MOST=1 $faulty <\$MIXED"
tried "a read that is interrupted" 0 "$work/example.sheet" "" "INTERRUPTS=3 READ_MOST=10 $faulty <\$EXAMPLE"
tried "standard input closed" 1 "$work/nothing" "$input Bad file descriptor" 'crates/material/out/material <&-'
tried "a read that fails after a whole face" 1 "$work/nothing" "$input Input/output error" "READ_FAILS=28 $faulty <\$EXAMPLE"
tried "a read that would fail after 4,096 bytes" 0 crates/faces_long/stdout "" "READ_FAILS=4096 $faulty <\$LONGER"
tried "a full disk" 1 - "$output No space left on device" 'crates/material/out/material <$EXAMPLE >/dev/full'
tried "a write in pieces" 0 crates/material/stdout "" "WRITE_MOST=100 $faulty <\$MIXED"
tried "a write that fails after 100 bytes" 1 - "$output Input/output error" "WRITE_FAILS=100 $faulty <\$MIXED"

echo "tools/faces.sh:"
run='bash tools/faces.sh'
tried "a face" 0 "$work/example.text" "" "$run \$EXAMPLE"
tried "a refused file" 1 "$work/short.text" "" "$run \$WORK/short"
tried "standard input" 0 "$work/example.text" "" "$run <\$EXAMPLE"
tried "standard input as -" 1 "$work/short.text" "" "$run - <\$WORK/short"
tried "several files" 1 "$work/both.text" "" "$run \$EXAMPLE \$WORK/short"
tried "standard input among several" 1 "$work/dash.text" "" "$run - \$EXAMPLE \$WORK/short <\$EXAMPLE"
missing="No such file or directory"
told "a missing file" 2 "faces: nosuch: $missing" "$run nosuch"
tried "a missing file among several" 2 "$work/both.text" "faces: nosuch: $missing" "$run \$EXAMPLE nosuch \$WORK/short"
told "two missing files" 2 "faces: nosuch: $missing"$'\n'"faces: other: $missing" "$run nosuch other"
told "a missing file with a colon in its name" 2 "faces: a: b: $missing" "$run 'a: b'"
ln -s loop "$work/loop"
told "a link to itself" 2 "faces: $work/loop: Too many levels of symbolic links" "$run \$WORK/loop"
cp "$example" "$work/secret"
chmod 000 "$work/secret"
[ -r "$work/secret" ] ||
    told "a file without permission" 2 "faces: $work/secret: Permission denied" "$run \$WORK/secret"
told "a directory" 2 "faces: crates: Is a directory" "$run crates"
told "standard input closed" 2 "faces: standard input: Bad file descriptor" "$run <&-"
told "a missing file, standard input closed" 2 "faces: nosuch: $missing" "$run nosuch <&-"
told "a read that fails after a whole face" 2 "faces: standard input: Input/output error" \
    "LD_PRELOAD=\$F READ_FAILS=28 $run <\$EXAMPLE"
told "a file whose read fails" 2 "faces: $example: Input/output error" "LD_PRELOAD=\$F READ_FAILS=20 $run \$EXAMPLE"
full="standard output: No space left on device"
told "a full disk" 2 "faces: $full" "$run \$EXAMPLE >/dev/full"
told "a full disk, several files" 2 "faces: $full" "$run \$EXAMPLE \$LARGEST >/dev/full"
told "standard output closed" 2 "faces: standard output: Bad file descriptor" "$run \$EXAMPLE >&-"
tried "no temporary file stays" 0 "$work/nothing" "" \
    "mkdir \$WORK/temporary; TMPDIR=\$WORK/temporary $run \$EXAMPLE >\$WORK/face; ls -A \$WORK/temporary"
tried "a pipe with a name" 0 "$work/example.text" "" "mkfifo \$WORK/pipe; cat \$EXAMPLE >\$WORK/pipe & $run \$WORK/pipe"
cp "$example" "$work/-p"
tried "a file whose name is an option" 0 "$work/example.text" "" "cd \$WORK && bash $root/tools/faces.sh -- -p"
sed "s|^|$example:|" "$work/example.text" >"$work/first.text"
tried "an option after a file is a file" 2 "$work/first.text" "faces: -p: No such file" "$run \$EXAMPLE -p"
cat >"$work/help" <<'T'
Runs a program on face files: bash tools/faces.sh [-p PROGRAM] [FILE ...]
The program is proved and built first where it is not there.
T
tried "--help, its first line and its last" 0 "$work/help" "" "set -o pipefail; $run --help | sed -n '1p;\$p'"
tried "-h" 0 "$work/help" "" "set -o pipefail; $run -h | sed -n '1p;\$p'"
tried "--help, a full disk" 2 - "No space left on device" "$run --help >/dev/full"
told "an option that there is not" 2 \
    "faces.sh: -x: no such option; --help shows them, and a file of this name is named after --" "$run -x \$EXAMPLE"
told "-p without a name" 2 "faces.sh: -p needs the name of a program, such as -p material" "$run -p"
told "a program that there is not" 2 \
    "faces.sh: nosuch: no such program; name one that has crates/PROGRAM/src/main.rt, such as faces or material" \
    "$run -p nosuch \$EXAMPLE"
told "a crate that is no program" 2 \
    "faces.sh: facefile: no such program; name one that has crates/PROGRAM/src/main.rt, such as faces or material" \
    "$run -p facefile \$EXAMPLE"

echo "tools/faces.sh -p material:"
run='bash tools/faces.sh -p material'
sed "s|^|$example:|" "$work/example.sheet" >"$work/both.sheet"
sed "s|^|$work/short:|" "$work/short.text" >>"$work/both.sheet"
tried "a face" 0 "$work/example.sheet" "" "$run \$EXAMPLE"
tried "a face of 64 gauges" 0 crates/material/stdout "" "$run <\$MIXED"
tried "a refused file" 1 "$work/short.text" "" "$run \$WORK/short"
tried "several files" 1 "$work/both.sheet" "" "$run -- \$EXAMPLE \$WORK/short"
tried "faces by its name" 0 "$work/example.text" "" "$run -p faces \$EXAMPLE"
told "a missing file" 2 "material: nosuch: $missing" "$run nosuch"
told "a directory" 2 "material: crates: Is a directory" "$run crates"
told "standard input closed" 2 "material: standard input: Bad file descriptor" "$run - <&-"
told "a full disk" 2 "material: $full" "$run \$EXAMPLE >/dev/full"

# A tree with programs that are shell commands: quiet prints nothing; loud prints a line of what it read, and a warning.
# Its rt proves nothing, reads all of standard input, and makes a copy of loud, but not of broken.
stub=$work/stub
mkdir -p "$stub"/{tools,bin} "$stub"/crates/{quiet,loud,later,broken}/{src,out}
for program in quiet loud later broken; do : >"$stub/crates/$program/src/main.rt"; done
cp tools/faces.sh "$stub/tools"
printf '#!/bin/sh\ncat >/dev/null\n' >"$stub/crates/quiet/out/quiet"
printf '#!/bin/sh\necho "<svg> $(wc -c)"\necho "loud: a warning" >&2\n' >"$stub/crates/loud/out/loud"
printf '#!/bin/sh\ncat\nname=${PWD##*/}\necho "rt $* in $name" >&2\n[ $name != broken ] && cp ../loud/out/loud out/$name\n' >"$stub/bin/rt"
chmod +x "$stub"/bin/rt "$stub"/crates/*/out/*
echo "<svg> 28" >"$work/loud.text"

echo "tools/faces.sh with programs to come:"
run='PATH=$WORK/stub/bin:$PATH bash $WORK/stub/tools/faces.sh'
told "no answer" 2 "quiet: $example: no answer" "$run -p quiet \$EXAMPLE"
told "no answer, standard input" 2 "quiet: standard input: no answer" "$run -p quiet <\$EXAMPLE"
tried "a text of another kind, with a warning" 0 "$work/loud.text" "loud: a warning" "$run -p loud \$EXAMPLE"
tried "a program that is built first" 0 "$work/loud.text" "rt run in later" "$run -p later <\$EXAMPLE"
tried "the same once more" 0 "$work/loud.text" "loud: a warning" "$run -p later <\$EXAMPLE"
tried "a program that cannot be built" 2 "$work/nothing" "faces.sh: broken: not proved and built" "$run -p broken"

# bytes HEX...: prints these bytes.
bytes() {
    printf "$(printf '\\x%s' "$@")"
}

# Document 01's example in version 2, byte by byte as it stands there but for the version, and as a text.
two="46 43 45 00 02 00 03 01 02 00 3C 00 28 00 28 00 3C 01 02 00 32 00 1E 00 1E 00 32 02"
bytes $two >"$work/two.face"
cat >"$work/two.txt" <<'T'
face 2
gauge 60x40 40x60
gauge 50x30 30x50
beside
T
# The same two gauges stacked, the first one below: kind 03.
bytes ${two% 02} 03 >"$work/pile.face"
sed 's/beside/stacked/' "$work/two.txt" >"$work/pile.txt"
# The same text as some editors and some hands write it: the mark of UTF-8, carriage returns, tabs, no version, no end
# of the last line, and bytes in a comment that are no UTF-8.
printf '\xEF\xBB\xBF# \xFC\r\n\r\n\tgauge\t060x0040 40x60#c\r\n' >"$work/odd.txt"
printf '  gauge  50x30\t 30x50 \r\n#beside\r\n beside' >>"$work/odd.txt"
# The texts of the dashboard, by the models.
cat >"$work/dashboard.py" <<'P'
import sys
from models import sheet_model, text_model

file = sys.stdin.buffer.read()
open(f"{sys.argv[1]}/dashboard.text", "w").write(text_model.text_of(file))
open(f"{sys.argv[1]}/dashboard.sheet", "wb").write(sheet_model.text_of(file))
P
python3 tools/face.py write examples/dashboard.txt - | PYTHONPATH=tools python3 -B "$work/dashboard.py" "$work"
mkdir "$work/made"

echo "tools/face.py:"
face='python3 tools/face.py'
made='$WORK/made/out'
# What a command that fails leaves in the folder made/ is printed, and taken away.
left='; ended=$?; ls -A $WORK/made; find $WORK/made -mindepth 1 -delete; exit $ended'
tried "document 01's example is written" 0 "$work/two.face" "" "$face write examples/two-gauges.txt $made && cat $made"
tried "and nothing beside it" 0 "$work/two.face" "" "ls -A \$WORK/made | grep -vx out; cat $made"
tried "its smallest face" 0 "$work/example.text" "" "crates/faces/out/faces <$made"
tried "it is read" 0 "$work/two.txt" "" "$face read $made"
tried "it is read to a file" 0 "$work/two.txt" "" "$face read $made \$WORK/read.txt && cat \$WORK/read.txt"
tried "and written again" 0 "$work/two.face" "" "$face write \$WORK/read.txt -"
tried "version 1 is read" 0 "$work/two.txt" "" "$face read \$EXAMPLE"
tried "a pile is written" 0 "$work/pile.face" "" "$face write \$WORK/pile.txt -"
tried "a pile is read" 0 "$work/pile.txt" "" "$face read \$WORK/pile.face -"
tried "a text as some editors write it" 0 "$work/two.face" "" "$face write \$WORK/odd.txt -"
tried "standard input and output, written" 0 "$work/two.face" "" "$face write - - <\$WORK/two.txt"
tried "standard input and output, read" 0 "$work/two.txt" "" "cat \$EXAMPLE | $face read - -"
tried "the largest face, written again" 0 crates/faces/stdout "" \
    "$face read \$LARGEST | $face write - - | crates/faces/out/faces"
tried "the dashboard through faces" 0 "$work/dashboard.text" "" \
    "$face write examples/dashboard.txt - | bash tools/faces.sh"
tried "the dashboard through material" 0 "$work/dashboard.sheet" "" \
    "$face write examples/dashboard.txt - | bash tools/faces.sh -p material"
tried "the dashboard has eight gauges" 0 <(echo 8) "" "grep -c ^gauge examples/dashboard.txt"
tried "from another folder" 0 "$work/two.txt" "" "cd / && python3 $root/tools/face.py read \$WORK/two.face"
tried "a link stays one" 0 "$work/two.face" "" \
    "ln -s made/out \$WORK/link && $face write \$WORK/two.txt \$WORK/link && [ -L \$WORK/link ] && cat $made"
tried "the rights of a file stay" 0 <(echo 640) "" \
    "chmod 640 $made && $face write \$WORK/two.txt $made && stat -c %a $made"
tried "a file that was not there has the usual rights" 0 <(echo 644) "" \
    "umask 022; $face write \$WORK/two.txt \$WORK/new && stat -c %a \$WORK/new"
mkfifo "$work/fifo"
tried "a pipe with a name stays one" 0 "$work/two.face" "" \
    "cat \$WORK/fifo & $face write \$WORK/two.txt \$WORK/fifo && wait && [ -p \$WORK/fifo ]"
tried "--help" 0 - "" "$face --help | grep -qF 'python3 tools/face.py write TEXT FILE'"

echo "tools/face.py where reading and writing go wrong:"
rm "$work/made/out"
usage="face.py: use it as write TEXT FILE or as read FILE [TEXT]; --help says more"
told "no words" 2 "$usage" "$face"
told "write without a file" 2 "$usage" "$face write \$WORK/two.txt"
told "read without a file" 2 "$usage" "$face read"
told "a file too many" 2 "$usage" "$face read \$EXAMPLE $made x$left"
told "another word" 2 "$usage" "$face print \$EXAMPLE"
told "a missing text" 2 "face.py: nosuch.txt: $missing" "$face write nosuch.txt $made$left"
told "a missing file" 2 "face.py: nosuch: $missing" "$face read nosuch $made$left"
told "a directory to read" 2 "face.py: crates: Is a directory" "$face read crates $made$left"
told "a directory to write to" 2 "face.py: crates: Is a directory" "$face write \$WORK/two.txt crates"
told "no folder to write to" 2 "face.py: nosuch/out: $missing" "$face write \$WORK/two.txt nosuch/out"
told "standard input closed" 2 "face.py: standard input: Bad file descriptor" "$face write - $made <&-$left"
told "standard output closed" 2 "face.py: standard output: Bad file descriptor" "$face write \$WORK/two.txt - >&-"
told "a full disk, written" 2 "face.py: $full" "$face write \$WORK/two.txt - >/dev/full"
told "a full disk, read" 2 "face.py: $full" "$face read \$EXAMPLE >/dev/full"
told "a full disk, --help" 2 "face.py: $full" "$face --help >/dev/full"
told "a file that may not grow" 2 "face.py: $work/made/out: File too large" \
    "set -o pipefail; (ulimit -f 0; $face write \$WORK/two.txt $made) 2>&1 | cat >&2$left"
cp "$work/pile.face" "$work/kept"
told "the same, and the file before it stays" 2 "face.py: $work/kept: File too large" \
    "set -o pipefail; (ulimit -f 0; $face write \$WORK/two.txt \$WORK/kept) 2>&1 | cat >&2; ended=\$?
    cmp \$WORK/kept \$WORK/pile.face; exit \$ended"
told "a text over itself" 2 "face.py: $work/two.txt: this is the file that was read; give the other one another name" \
    "$face write \$WORK/two.txt \$WORK/two.txt"
tried "and it stays" 0 "$work/two.face" "" "$face write \$WORK/two.txt -"
printf 'gauge 1x1\nbeside\n' >"$work/wrong.txt"
tried "a wrong text, and the file before it stays" 1 "$work/pile.face" "line 2" \
    "$face write \$WORK/wrong.txt \$WORK/kept; ended=\$?; cat \$WORK/kept; exit \$ended"
tried "a wrong text from standard input" 1 "$work/nothing" "face.py: standard input: line 1: 'guage' is not known" \
    "echo guage | $face write - $made$left"

# wrong NAME WORDS TEXT: face.py does not write this text, says just these words of it, and leaves no file.
wrong() {
    printf "$3" >"$work/wrong.txt"
    told "$1" 1 "face.py: $work/wrong.txt: $2" "$face write \$WORK/wrong.txt $made$left"
}

# many COUNT LINE: so many lines. pairs COUNT: so many gauges, each from the second on joined to those before it.
many() {
    for ((i = 0; i < $1; i++)); do echo "$2"; done
}
pairs() {
    echo "gauge 1x1"
    many $(($1 - 1)) $'gauge 1x1\nbeside'
}

echo "tools/face.py on wrong texts:"
no_entries="the text has 0 entries; a face has 1 to 127, and the first is a gauge (check 4)"
outside="is outside the limits; take a height and a width of 1 to 1,000 (check 8)"
no_size="is not a size; write HEIGHTxWIDTH in half-millimetres, such as 60x40"
unknown="is not known; begin a line with gauge, beside or stacked, and a comment with #"
wrong "nothing at all" "line 1: $no_entries" ''
wrong "comments alone" "line 1: $no_entries" '# a\n\n# b\n'
wrong "a version alone" "line 2: $no_entries" '# a\nface 2\n\n'
only_2="only version 2 is written; write 'face 2', or leave the line out"
wrong "version 1" "line 1: $only_2" 'face 1\ngauge 1x1\n'
wrong "no version" "line 2: $only_2" '\nface\ngauge 1x1\n'
wrong "two versions" "line 1: $only_2" 'face 2 2\ngauge 1x1\n'
once="'face' stands once, before all entries; take this line out"
wrong "the version twice" "line 2: $once" 'face 2\nface 2\ngauge 1x1\n'
wrong "the version too late" "line 3: $once" '\ngauge 1x1\nface 2\n'
wrong "an unknown word" "line 3: 'guage' $unknown" 'face 2\ngauge 1x1\nguage 1x1\n'
wrong "a capital letter" "line 1: 'Gauge' $unknown" 'Gauge 1x1\n'
wrong "a number for a word" "line 1: '02' $unknown" '02\n'
wrong "a face file for a text" "line 1: 'FCE\\x00\\x01' $unknown" 'FCE\0\001\n'
wrong "a blank of another kind" "line 1: 'gauge\\xa01x1' $unknown" 'gauge\xC2\xA01x1\n'
wrong "a long word" "line 1: '$(many 40 a | tr -d '\n')...' $unknown" "$(many 90 a | tr -d '\n')"
wrong "a gauge without sizes" "line 2: this gauge has 0 sizes; write 1 to 8 after the word (check 7)" \
    'gauge 1x1\ngauge # 1x1\n'
wrong "nine sizes" "line 1: this gauge has 9 sizes; write 1 to 8 after the word (check 7)" \
    'gauge 9x1 8x2 7x3 6x4 5x5 4x6 3x7 2x8 1x9\n'
for size in '60*40' 60x x40 60 x 60x40x2 60,40 60X40 -1x3 +1x3 1x-3 1e3x4 1.5x4 0x1Fx2 60x40, 60xx40 'gauge'; do
    wrong "the size $size" "line 2: '$size' $no_size" "face 2\ngauge 1x1 $size 2x2\n"
done
wrong "a size with a blank in it" "line 1: '60' $no_size" 'gauge 60 x 40\n'
wrong "digits of another script" "line 1: '٦٠x٤٠' $no_size" 'gauge ٦٠x٤٠\n'
wrong "a raised digit" "line 1: '6²x4' $no_size" 'gauge 6²x4\n'
wrong "bytes that are no UTF-8" "line 1: '6\\udcfc4' $no_size" 'gauge 6\xFC4\n'
for size in 0x1 1x0 000x1 1001x1 1x1001 1000000000000x1 1x99999999999999999999; do
    wrong "the size $size" "line 1: the size '$size' $outside" "gauge 1x1 $size # 1x1\n"
done
wrong "a word after a join" "line 3: 'beside' stands alone on its line; take out 'gauge 1x1', or put # before it" \
    'gauge 1x1\ngauge 1x1\nbeside gauge 1x1\n'
both="write both parts before it, or take it out (check 11)"
wrong "a join of nothing" "line 1: 'stacked' joins the two newest parts and finds 0; $both" 'stacked\n'
wrong "a join of one part" "line 4: 'beside' joins the two newest parts and finds 1; $both" \
    'gauge 1x1\ngauge 1x1\nbeside\nbeside\n'
wrong "two parts left" "line 2: 2 parts are left at the end; join them with beside or stacked (check 12)" \
    'gauge 1x1\ngauge 1x1\n# beside\n\n'
wrong "three parts left" "line 5: 3 parts are left at the end; join them with beside or stacked (check 12)" \
    'gauge 1x1\ngauge 1x1\ngauge 1x1\nstacked\ngauge 1x1\n'
wrong "the 65th gauge" "line 128: this is gauge 65; a face has at most 64, so take some out (check 10)" "$(pairs 65)"
wrong "the 65th gauge of a row" "line 65: this is gauge 65; a face has at most 64, so take some out (check 10)" \
    "$(many 66 'gauge 0x1 2x2' | sed '1,64s/0x1/1x1/')"
tried "64 gauges are taken" 0 "$work/nothing" "" "$face write - \$WORK/64.face <<<'$(pairs 64)'"
bytes 46 43 45 00 02 00 01 01 08 03 E8 00 01 00 01 03 E8 00 01 00 01 $(many 10 '00 01') >"$work/ends.face"
tried "eight sizes and the ends of the limits" 0 "$work/ends.face" "" \
    "$face write - - <<<'gauge 1000x1 1x01000 1x1 1x1 1x1 1x1 1x1 01x1'"

# refused NUMBER QUESTION HEX...: face.py does not read the file of these bytes, by this question, and leaves no file.
refused() {
    bytes "${@:3}" >"$work/bad"
    told "check $1" 1 "face.py: $work/bad: refused $1: $2 No; it is damaged or no face file, so write it again" \
        "$face read \$WORK/bad $made$left"
}

echo "tools/face.py on refused files:"
head="46 43 45 00 02 00"
one="01 01 00 01 00 01"
refused 1 "7 bytes or more?" $head
refused 2 "First three FCE?" 46 43 46 00 02 00 01 $one
refused 3 "Version 1 or 2?" 46 43 45 00 03 00 01 $one
refused 4 "Entries 1 to 127?" $head 00
refused 5 "Kind byte, size-count byte, all bytes of a gauge's sizes present?" $head 01 01 01 00 01 00
refused 6 "Kind 01, 02 or 03?" $head 01 04
refused 7 "Size count 1 to 8?" $head 01 01 09
refused 8 "Height and width both 1 to 1,000?" $head 01 01 01 03 E9 00 01
refused 9 "Height less and width more than the size before?" 46 43 45 00 01 00 01 01 02 00 02 00 01 00 02 00 02
refused 10 "At most the 64th gauge?" $head 41 $(many 65 "$one")
refused 11 "Two parts on the stack?" $head 02 $one 02
refused 12 "One part left?" $head 02 $one $one
refused 13 "File at its end?" $head 01 $one 00
told "a file that never ends" 1 \
    "face.py: standard input: refused 13: File at its end? No; it is damaged or no face file, so write it again" \
    "cat \$WORK/two.face /dev/zero | $face read - $made$left"

echo "4000 faces as texts and back, 0 differ" >"$work/fuzzed"

echo "tools/face.py on random faces:"
tried "4,000 faces as texts and back" 0 "$work/fuzzed" "" 'python3 tools/fuzz_texts.py --faces 4000 --seed 1'

echo "$passed passed, $failed failed"
[ "$failed" -eq 0 ]
