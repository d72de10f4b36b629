#!/bin/sh
# run.sh [--store]: runs each example by the launcher, and compares its status, its report (standard output), its message
# (standard error) and the mesh that it writes with those that are stored in expected/. With --store it stores them, for
# a person to read and commit. Then, where python3 is, it holds the thinned terrain to a thinning by the definitions alone,
# and checks the tools that bring meshes from and to other programs.
# The exit status is 0 where all is as it is to be, else 1.

here=$(cd "$(dirname "$0")" && pwd)
oemm=$here/../oemm
cd "$here" || exit 1
room=$(mktemp -d) || exit 1
trap 'rm -rf "$room"' EXIT
out=$room/out          # the mesh that an example writes, without its ending
report=$room/report
store=
if [ "$1" = --store ]; then store=yes; fi
ran=0 failed=0

# Notes that something isn't as it is to be.
fail() {
    failed=$((failed + 1))
    printf 'examples: %s\n' "$*" >&2
}

# Compares the file $2 with the stored one of the example $1, whose ending is $3, or stores it. None is the same as empty.
compare() {
    stored=expected/$1.$3
    if [ -n "$store" ]; then
        rm -f "$stored"
        if [ -s "$2" ]; then cp "$2" "$stored"; fi
    elif [ ! -e "$stored" ] && [ -s "$2" ]; then
        fail "$1: there is no expected/$1.$3, and this came:"
        cat "$2" >&2
    elif [ -e "$stored" ] && ! cmp -s "$stored" "$2"; then
        fail "$1: this isn't expected/$1.$3:"
        diff "$stored" "$2" >&2
    fi
}

# example NAME STATUS WORD..: runs the program with the words, and compares what it writes.
example() {
    name=$1 wanted=$2
    shift 2
    ran=$((ran + 1))
    rm -f "$out".*
    "$oemm" "$@" >"$report" 2>"$room/message" </dev/null
    status=$?
    if [ "$status" -ne "$wanted" ]; then fail "$name: the status is $status, and not $wanted"; fi
    compare "$name" "$report" report
    compare "$name" "$room/message" message
    for form in off ply; do compare "$name" "$out.$form" "$form"; done
}

# A first start builds the program, where it has to be, and tells how far it is.
"$oemm" run square.off empty.txt "$out.off" >/dev/null || exit 1

# what is done
example tetrahedron 0 run tetrahedron.off tetrahedron.txt "$out.off"
example octahedron 0 run octahedron.off octahedron.txt "$out.off"
example square 0 run square.off square.txt "$out.off"
example terrain_moved 0 run terrain.off terrain.txt "$out.ply"
example terrain_thinned 0 run terrain.off thin.txt "$out.off"
example ply_to_off 0 run expected/terrain_moved.ply empty.txt "$out.off"
example off_to_ply 0 run expected/ply_to_off.off empty.txt "$out.ply"
if ! cmp -s expected/terrain_moved.ply expected/off_to_ply.ply; then fail "PLY to OFF and back isn't the same"; fi

# 1: words in no form
example no_words 1
example few_words 1 run square.off square.txt
example other_command 1 walk square.off square.txt "$out.off"
example other_ending 1 run square.off square.txt "$room/out.stl"

# 2: what can't be read
example no_mesh 2 run none.off square.txt "$out.off"
example mesh_is_a_folder 2 run expected square.txt "$out.off"
example no_script 2 run square.off none.txt "$out.off"

# 3: faults of the mesh's text
example float_off 3 run refused/float.off empty.txt "$out.off"
example quad 3 run refused/quad.off empty.txt "$out.off"
example outside_the_grid 3 run refused/far.off empty.txt "$out.off"
example cut 3 run refused/cut.off empty.txt "$out.off"
example ascii_ply 3 run refused/ascii.ply empty.txt "$out.off"
example float_ply 3 run refused/float.ply empty.txt "$out.off"

# 4: no manifold
example bowtie 4 run bowtie.off empty.txt "$out.off"
example edge_in_two_faces 4 run refused/twice.off empty.txt "$out.off"

# 5: faults of the script's text
example unknown_word 5 run square.off refused/word.txt "$out.off"
example edit_before_a_task 5 run square.off refused/no_task.txt "$out.off"
example lane_above_63 5 run square.off refused/lane.txt "$out.off"
example box_upside_down 5 run square.off refused/box.txt "$out.off"

# 7: what can't be written
example no_folder 7 run square.off square.txt "$room/none/out.off"
ln -s /dev/full "$room/full.off"
example full_disk 7 run square.off square.txt "$room/full.off"
report=/dev/full
example full_disk_for_the_report 7 run square.off square.txt "$out.off"
report=$room/report

# an older OUT stands where a new one can't be written: a run on the mesh that it reads, with a folder in the place of the
# second file, and on a disk that takes no more bytes
kept=$room/kept.off
cp octahedron.off "$kept"
for why in second_file_is_a_folder disk_takes_nothing; do
    ran=$((ran + 1))
    if [ "$why" = second_file_is_a_folder ]; then
        mkdir "$kept.new"
        "$oemm" run "$kept" octahedron.txt "$kept" >/dev/null 2>&1 </dev/null
        status=$?
        rmdir "$kept.new"
    else
        (trap '' XFSZ && ulimit -f 0 && exec "$oemm" run "$kept" octahedron.txt "$kept") >/dev/null 2>&1 </dev/null
        status=$?
    fi
    if [ "$status" -ne 7 ]; then fail "$why: the status is $status, and not 7"; fi
    cmp -s octahedron.off "$kept" || fail "$why: the older mesh doesn't stand as it was"
    if [ -e "$kept.new" ]; then fail "$why: $kept.new is left"; fi
done
ran=$((ran + 1))
"$oemm" run "$kept" octahedron.txt "$kept" >/dev/null 2>&1 </dev/null || fail "a run on its own mesh fails"
cmp -s expected/octahedron.off "$kept" || fail "a run on its own mesh doesn't replace it"

# 8: a limit
example too_many_vertices 8 run refused/many.off empty.txt "$out.off"

if command -v python3 >/dev/null; then
    export PYTHONDONTWRITEBYTECODE=1
    # the steps and the mesh of the thinned terrain, by the definitions alone
    python3 thinning.py terrain.off 100 "$room/thinned.off" >"$room/steps"
    sed '1,2d; $d' expected/terrain_thinned.report >"$room/told"
    cmp "$room/steps" "$room/told" && cmp "$room/thinned.off" expected/terrain_thinned.off || fail "the thinned terrain isn't that of thinning.py"
    python3 check_tools.py "$oemm" || fail "tools/ isn't as it is to be"
else
    echo "examples: there is no python3, so neither the thinned terrain nor the tools were checked"
fi
printf 'examples: %s ran, %s differences\n' "$ran" "$failed"
[ "$failed" -eq 0 ]
