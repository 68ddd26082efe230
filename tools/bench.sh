#!/bin/bash
# Builds the benchmarks, counts the instructions of the proved calls beside those of C programs, and prints the tables
# of docs/BENCHMARKS.md.
#
#     bash tools/bench.sh            prints them, and last the lines that the page has otherwise
#     bash tools/bench.sh --write    puts them into the page
#
# It needs x86-64, the Rattle kit (rt), gcc, valgrind and python3. Where the crates are proved (`rt check`) it takes some
# minutes. A first run on a fresh clone also proves them.
#
# bench/rattle.rt.txt makes a static library of the proved calls, bench/catalogue.rt.txt one of the catalogue call and
# bench/sheet.rt.txt one of the sheet call. Each C program of bench/ links one of them, once compiled by gcc and once by
# the kit's clang. callgrind counts what is executed inside each function, so the counts are the same on every run.
set -euo pipefail
cd "$(dirname "$0")/.."
SECONDS=0
faces='row-of-64 row-of-64-back row-of-64-balanced pile-of-64 pile-of-64-balanced lopsided-64 lopsided-64-back
    balanced-64 balanced-64-stacked mixed-64 alternating-64 alternating-64-back alternating-64-many'
printed='mixed-64-ordered mixed-64-shuffled mixed-64-repeated
    row-of-64-ordered row-of-64-shuffled row-of-64-repeated'
families='lopsided balanced alternating'
gauges='8 16 32 64'
tables='own uncut ones eights scattered'
lengths='1 16 64 128 256 448'
ways='newer-gap newer-tie older-gap older-tie'
read_face=row-of-64
filled='row-of-64 pile-of-64 balanced-64 row-of-64-repeated mixed-64-repeated
    lopsided-of-32 lopsided-of-16 lopsided-of-8'
walked='row-of-64 pile-of-64 balanced-64 mixed-64 lopsided-64 alternating-64-many mixed-64-repeated lopsided-of-8'
heights=256
fewer_heights='1 4 16 64'
sheeted=$walked
saved='row-of-64 mixed-64 balanced-64 mixed-64-repeated lopsided-of-8'
rib=20
page=docs/BENCHMARKS.md
kit=$(dirname "$(dirname "$(readlink -f "$(command -v rt)")")")
clang=$kit/toolchain/bin/clang
by_gcc="gcc $(gcc -dumpversion | cut -d. -f1)"
by_clang="clang $("$clang" -dumpversion | cut -d. -f1)"
work=$(mktemp -d)
trap 'rm -rf "$work"' EXIT

# Runs a command. What it says goes to a file, and is shown only where the command fails.
quietly() { # FILE COMMAND WORD...
    "${@:2}" >"$work/$1" 2>&1 || { tail -n 20 "$work/$1" >&2; exit 1; }
}

# ---- the programs

# Proves and builds the program faces, and makes copies of the crates in a temporary folder. There rt begins with what
# was proved here.
copy_crates() {
    (cd crates/faces && quietly said rt run </dev/null)
    tar -c --exclude=out crates crates.txt | tar -x -C "$work"
}

# Proves there, beside the copies, a crate of exported calls, and makes a static library of it.
make_library() { # NAME FILE DEP...
    mkdir -p "$work/crates/$1/src"
    cp "$2" "$work/crates/$1/src/lib.rt"
    echo "$1 staticlib: ${*:3}" >>"$work/crates.txt"
    (cd "$work/crates/$1" && quietly said rt lib)
}

# Links the levels call alone, without the C library.
link_levels() {
    cat >"$work/levels.rt" <<'END'
#![tactic(auto)]

#[unsafe(no_mangle)]
pub extern "C" fn levels_call(file: &[u8], levels: &mut [u8]) -> u32 {
    levels::fill(file, levels)
}
END
    make_library levels_alone "$work/levels.rt" levels
    gcc -nostdlib -static-pie -Wl,--gc-sections,-u,levels_call,-e,levels_call,--unresolved-symbols=ignore-all \
        -o "$work/levels" "$work/crates/levels_alone/out/liblevels_alone.a"
}

# The kit's clang has no headers of its own: it takes those of gcc.
run_compiler() { # COMPILER WORD...
    if [ "$1" = gcc ]; then
        gcc -O3 -Wall -Wextra "${@:2}"
    else
        "$clang" -O3 -Wall -Wextra -isystem "$(gcc -print-file-name=include)" "${@:2}"
    fi
}

# Compiles a program of files of bench/ by both compilers, with a library of exported calls. gcc links it: with -z now the
# dynamic linker's work is done before the program starts. Both programs have names of one length, NAME-gcc and NAME-cla:
# where the stack begins hangs on the name, and on that what the C library takes to clear a buffer there.
compile() { # PROGRAM LIBRARY FILE...
    for compiler in gcc clang; do
        mkdir -p "$work/$1-$compiler.objects"
        for file in "${@:3}"; do
            run_compiler $compiler -c -o "$work/$1-$compiler.objects/$file.o" "bench/$file"
        done
        gcc -Wl,-z,now -o "$work/$1-${compiler:0:3}" "$work/$1-$compiler.objects"/*.o "$work/crates/$2/out/lib$2.a"
    done
}

# The names of the faces of the growing families.
growing() {
    for family in $families; do
        for g in $gauges; do echo "$family-of-$g"; done
    done
}

# ---- counting

# Runs a program under callgrind, in an empty environment. NAME.counts has the instructions inside each function.
count() { # NAME PROGRAM WORD...
    env -i valgrind --tool=callgrind --log-file=/dev/null --callgrind-out-file="$work/$1.profile" "${@:2}" &&
        callgrind_annotate --inclusive=yes --threshold=100 "$work/$1.profile" >"$work/$1.counts" &&
        rm "$work/$1.profile"
}

# Counts a program by both compilers, on two cores: NAME-gcc and NAME-clang. NAME.printed is what it prints.
profile() { # NAME PROGRAM WORD...
    quietly said count "$1-gcc" "$work/$2-gcc" "${@:3}" &
    (quietly "$1.printed" count "$1-clang" "$work/$2-cla" "${@:3}") || { wait; exit 1; }
    wait $!
}

profile_merges() {
    for k in $lengths; do
        for side in newer older; do
            for place in gap tie; do profile "$k-$side-$place" merge $side $place "$k" 0; done
        done
    done
}

profile_calls() { # TABLE FACE...
    for face in "${@:2}"; do profile "$face-$1" calls "$work/$face.fce" "$work/$face.$1" 0; done
}

profile_ribs() { # FACE...
    for face in "$@"; do profile "$face-rib" calls "$work/$face.fce" "$work/$face.own" $rib; done
}

profile_walks() { # HEIGHTS FACE...
    for face in "${@:2}"; do profile "$face-$1" catalogue "$work/$face.fce" "$work/$face.own" "$1"; done
}

profile_sheets() { # FACE...
    for face in "$@"; do profile "$face-sheet" sheet "$work/$face.fce" "$work/$face.own"; done
}

profile_process() {
    count process crates/faces/out/faces <"$work/$read_face.fce" >"$work/process.printed"
}

profile_all() {
    profile_merges
    for table in $tables; do profile_calls $table $faces; done
    for table in own scattered; do profile_calls $table $(growing); done
    profile_calls own $printed
    profile_ribs $faces
    profile_walks $heights $walked
    for count in $fewer_heights; do profile_walks "$count" $read_face; done
    profile_sheets $sheeted
    profile_process
}

# Prints the instructions inside a function, with those of the functions that it calls.
inside() { # FUNCTION NAME
    sed -n "s/^ *\([0-9,]*\) (.*:$1 \[.*/\1/p" "$work/$2.counts" | tr -d ,
}

# The same for an exported call, which is one and the same in the programs of both compilers. Where the buffers lie is not, and
# on that some instructions of the writing call hang: of it this is the larger count.
rattle() { # FUNCTION NAME
    by_one=$(inside "$1" "$2-gcc") by_other=$(inside "$1" "$2-clang")
    if [ "$1" = rattle_write_file ] && [ "$by_one" ] && [ "$by_other" ]; then
        echo $((by_one > by_other ? by_one : by_other))
        return
    fi
    [ "$by_one" ] && [ "$by_one" = "$by_other" ] || { echo "$1 on $2 takes no count, or two" >&2; exit 1; }
    echo "$by_one"
}

# ---- the tables

# Prints a number worked out by awk.
worked_out() { # FORMAT EXPRESSION
    awk "BEGIN { printf \"$1\", $2 }"
}

row() { # CELL...
    printf '|'
    printf ' %s |' "$@"
    echo
}

header() { # NAME...
    row "$@"
    printf '|'
    for _ in "$@"; do printf -- '---|'; done
    echo
}

# The names of the columns of a count of Rattle and of two of C, and of the first by each of the others.
c_names=("C, $by_gcc" "C, $by_clang" "Rattle / C, $by_gcc" "Rattle / C, $by_clang")

# Prints the cells of such columns.
beside_c() { # RATTLE GCC CLANG
    echo "$1 | $2 | $3 | $(worked_out %.2f "$1 / $2") | $(worked_out %.2f "$1 / $3")"
}

# Prints the mean over some ways to merge.
mean() { # FUNCTION COMPILER K WAY...
    sum=0 merges=0
    for way in "${@:4}"; do
        sum=$((sum + $(inside "$1" "$3-$way-$2")))
        merges=$((merges + $(cat "$work/$3-$way.printed")))
    done
    worked_out %.0f "$sum / $merges"
}

merge_table() {
    header k Rattle "${c_names[@]}" "plain array, C, $by_gcc" "plain array, C, $by_clang"
    for k in $lengths; do
        row "$k" "$(beside_c "$(mean rattle_merge gcc "$k" $ways)" "$(mean lazy_merge gcc "$k" $ways)" \
            "$(mean lazy_merge clang "$k" $ways)")" \
            "$(mean plain_merge gcc "$k" $ways)" "$(mean plain_merge clang "$k" $ways)"
    done
}

ways_table() {
    header k 'newer, in a gap' 'newer, on a record' 'older, in a gap' 'older, on a record'
    for k in $lengths; do
        cells=()
        for way in $ways; do cells+=("$(mean rattle_merge gcc "$k" $way)"); done
        row "$k" "${cells[@]}"
    done
}

# Prints the cells of the list call by lazy lists.
list_cells() { # NAME
    beside_c "$(rattle rattle_list "$1")" "$(inside lazy_list "$1-gcc")" "$(inside lazy_list "$1-clang")"
}

plain_cells() { # NAME
    echo "$(inside plain_list "$1-gcc") | $(inside plain_list "$1-clang")"
}

list_table() {
    header face items Rattle "${c_names[@]}" "plain arrays, C, $by_gcc" "plain arrays, C, $by_clang"
    for face in $faces; do
        read -r items _ <"$work/$face-own.printed"
        row $face "$items" "$(list_cells $face-own)" "$(plain_cells $face-own)"
    done
}

levels_table() { # TABLE
    header face Rattle "${c_names[@]}"
    for face in $faces; do row $face "$(list_cells "$face-$1")"; done
}

# The last column is in instructions for each n log2 n, n being the number of sizes.
growth_table() { # TABLE
    header family gauges items Rattle "${c_names[@]}" "plain arrays, C, $by_gcc" "plain arrays, C, $by_clang" \
        'Rattle per n log2 n'
    for family in $families; do
        for g in $gauges; do
            name=$family-of-$g-$1
            n=$((8 * g))
            read -r items _ <"$work/$name.printed"
            row $family "$g" "$items" "$(list_cells $name)" "$(plain_cells $name)" \
                "$(worked_out %.1f "$(rattle rattle_list $name) / ($n * log($n) / log(2))")"
        done
    done
}

# Prints the cells of the fit call's own part, in Rattle what it does beside the build.
own_cells() { # NAME FIT BUILD
    beside_c $(($2 - $3)) "$(inside stored_fit "$1-gcc")" "$(inside stored_fit "$1-clang")"
}

fit_table() {
    header face items area 'fit, Rattle' 'build, Rattle' 'own part, Rattle' "${c_names[@]}"
    for face in $faces; do
        read -r items area _ <"$work/$face-own.printed"
        fit=$(rattle rattle_fit $face-own)
        build=$(rattle rattle_build $face-own)
        row $face "$items" "$area" "$fit" "$build" "$(own_cells $face-own "$fit" "$build")"
    done
}

# The faces of version 2.
printed_table() {
    header face items 'list, Rattle' "${c_names[@]}" 'fit, Rattle' 'own part, Rattle' "${c_names[@]}"
    for face in $printed; do
        read -r items _ <"$work/$face-own.printed"
        fit=$(rattle rattle_fit $face-own)
        build=$(rattle rattle_build $face-own)
        row $face "$items" "$(list_cells $face-own)" "$fit" "$(own_cells $face-own "$fit" "$build")"
    done
}

# C and the ratios are at the rib too.
ribs_table() {
    header face items 'list, rib 0, Rattle' "list, rib $rib, Rattle" "${c_names[@]}" \
        'fit, rib 0, Rattle' "fit, rib $rib, Rattle" "own part, rib $rib, Rattle" "${c_names[@]}"
    for face in $faces; do
        read -r items _ <"$work/$face-rib.printed"
        fit=$(rattle rattle_fit $face-rib)
        build=$(rattle rattle_build $face-rib)
        row $face "$items" "$(rattle rattle_list $face-own)" "$(list_cells $face-rib)" \
            "$(rattle rattle_fit $face-own)" "$fit" "$(own_cells $face-rib "$fit" "$build")"
    done
}

# Prints the cells of the reading call from one end. Each program makes the call twice.
reading_cells() { # RATTLE-CALL C-CALL NAME
    beside_c $(($(rattle "$1" "$3") / 2)) $(($(inside "$2" "$3-gcc") / 2)) $(($(inside "$2" "$3-clang") / 2))
}

reading_table() {
    header levels 'from the top, Rattle' "${c_names[@]}" 'from the low end, Rattle' "${c_names[@]}"
    for table in $tables; do
        name=$read_face-$table
        row $table "$(reading_cells rattle_read arena_read $name)" "$(reading_cells rattle_read_low arena_read_low $name)"
    done
}

levels_call_table() {
    header face sizes Rattle "${c_names[@]}"
    for face in $filled; do
        name=$face-own
        read -r _ _ _ _ _ sizes <"$work/$name.printed"
        row $face "$sizes" "$(beside_c "$(rattle rattle_fill_levels $name)" "$(inside levels_fill $name-gcc)" \
            "$(inside levels_fill $name-clang)")"
    done
}

# Prints the bytes of a section of the levels call that is linked alone.
section() { # NAME
    size -A "$work/levels" | awk -v name="$1" '$1 == name { bytes = $2 } END { print bytes + 0 }'
}

# In the program of all calls the checks of the file are a function of their own, which other calls use too.
levels_size_table() {
    header 'code beside the checks' 'code with the checks' constants
    beside=$(nm -S "$work/calls-gcc" | awk '$4 == "rattle_fill_levels" { print $2 }')
    row $((16#$beside)) "$(section .text)" "$(section .rodata)"
}

walk_row() { # HEIGHTS FACE
    read -r items looks <"$work/$2-$1.printed"
    row "$2" "$items" "$1" "$looks" "$(rattle rattle_widths "$2-$1")" "$(beside_c "$(rattle rattle_walk "$2-$1")" \
        "$(inside walking_widths "$2-$1-gcc")" "$(inside walking_widths "$2-$1-clang")")"
}

catalogue_table() {
    header face items heights looks 'call, Rattle' 'walk, Rattle' "${c_names[@]}"
    for face in $walked; do walk_row $heights $face; done
    for count in $fewer_heights; do walk_row "$count" $read_face; done
}

# Prints what the sheet call in C does beside the fit call inside it.
c_printing() { # NAME
    echo $(($(inside lines_sheet "$1") - $(inside stored_fit "$1")))
}

# Printing is the sheet call without the work of the fit call, the own part the sheet call without the build.
sheet_table() {
    header face bytes 'sheet, Rattle' 'fit, Rattle' 'printing, Rattle' "${c_names[@]}" \
        'own part, Rattle' "${c_names[@]}"
    for face in $sheeted; do
        name=$face-sheet
        sheet=$(rattle rattle_sheet $name)
        fit=$(rattle rattle_fit $name)
        build=$(rattle rattle_build $name)
        row $face "$(cat "$work/$name.printed")" "$sheet" "$fit" \
            "$(beside_c $((sheet - fit)) "$(c_printing $name-gcc)" "$(c_printing $name-clang)")" \
            "$(beside_c $((sheet - build)) "$(inside lines_sheet $name-gcc)" "$(inside lines_sheet $name-clang)")"
    done
}

# Words to a file, and a file to words.
saving_table() {
    header face bytes words 'write, Rattle' "${c_names[@]}" 'read, Rattle' "${c_names[@]}"
    for face in $saved; do
        name=$face-own
        read -r _ _ _ _ words _ <"$work/$name.printed"
        row $face "$(wc -c <"$work/$face.fce")" "$words" \
            "$(beside_c "$(rattle rattle_write_file $name)" "$(inside saving_write $name-gcc)" \
                "$(inside saving_write $name-clang)")" \
            "$(beside_c "$(rattle rattle_read_words $name)" "$(inside saving_read $name-gcc)" \
                "$(inside saving_read $name-clang)")"
    done
}

process_table() {
    header face 'bytes printed' 'inside main' 'whole process'
    whole=$(sed -n 's/^ *\([0-9,]*\) .*PROGRAM TOTALS/\1/p' "$work/process.counts" | tr -d ,)
    row $read_face "$(wc -c <"$work/process.printed")" "$(inside main process)" "$whole"
}

stack_table() {
    header face 'list, Rattle' 'fit, Rattle'
    for face in $faces; do
        read -r _ _ list fit _ <"$work/$face-own.printed"
        row $face "$list" "$fit"
    done
}

# Prints a heading or a line before a table, and the table.
with() { # LINE TABLE WORD...
    printf '%s\n\n' "$1"
    "${@:2}"
    echo
}

print_all() {
    with '## One merge' merge_table
    with 'Rattle, by where the item is:' ways_table
    with '## The list call' list_table
    with 'Under uncut levels, one in four:' levels_table uncut
    with 'Under levels that are all 1:' levels_table ones
    with 'Under levels that are all 8:' levels_table eights
    with 'Under scattered levels:' levels_table scattered
    with '## Growth' growth_table own
    with 'Under scattered levels:' growth_table scattered
    with '## The fit call' fit_table
    with '## Sizes as they are printed' printed_table
    with '## With ribs' ribs_table
    with '## The reading call' reading_table
    with '## The levels call' levels_call_table
    with 'Linked, in bytes:' levels_size_table
    with '## The catalogue call' catalogue_table
    with '## The sheet call' sheet_table
    with '## Saving a face' saving_table
    with '## The program faces' process_table
    with '## Stack' stack_table
}

# ---- all of it

echo 'Proving the calls and building the programs.' >&2
copy_crates
make_library rattle_calls bench/rattle.rt.txt maxplus merging parts levels shapes placing fit saving
make_library rattle_catalogue bench/catalogue.rt.txt walking catalogue
make_library rattle_sheet bench/sheet.rt.txt parts placing fit materialsheet
link_levels
compile merge rattle_calls merge.c lazy.c plain.c useful.c
compile catalogue rattle_catalogue catalogue.c walking.c lists.c lazy.c plain.c useful.c face.c
compile sheet rattle_sheet sheet.c lines.c stored.c plain.c useful.c face.c
compile calls rattle_calls calls.c lists.c lazy.c plain.c useful.c reading.c stored.c face.c saving.c levels.c
PYTHONPATH=tools python3 -B -m making.bench_faces "$work" $faces $(growing) $printed
profile_all
print_all | tee "$work/tables"
if [ "${1:-}" = --write ]; then python3 -B tools/making/put_tables.py "$page" "$work/tables"; fi

grep -Fxvf "$page" "$work/tables" >"$work/other" || true
if [ -s "$work/other" ]; then
    echo "$page has these lines otherwise:"
    cat "$work/other"
else
    echo "$page has each of these lines."
fi
rm -rf "$work"
echo "This took $SECONDS seconds."
