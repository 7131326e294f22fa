#!/usr/bin/env bash
# Runs the program on a stored run, where its files lie: tools/run.sh [--prove] [FOLDER]
# FOLDER has args, data/ and, where the run is to end with a status other than 0, status. By default it is
# crates/dyntensor, whose run the README shows; examples/ has others.
#
# The proved program is run if it is built for these very sources: crates/dyntensor/out/dyntensor is there, and no .rt or
# .antt file of any crate, no folder of such files and not crates.txt has a later file time. Otherwise the program is run as
# it is before any proof. Standard error says which of the two it was. With --prove it is proved and built first.
#
# Where FOLDER has a file any_order, several sessions take turns in any order. The report of this very run is judged then, by
# tools/check_report.py: it makes the calls of the printed history on one thread, and compares every line.
#
# It ends with status 0 if the program ended with the stored status and no report was judged to be wrong, and with 1 otherwise.
set -eu
shopt -s nullglob
top=$(realpath "$(dirname "$0")/..")
program=$top/crates/dyntensor/out/dyntensor

fail() {
    echo "run.sh: $1" >&2
    exit 1
}

# A file that is taken away leaves its folder with a later time.
is_for_these_sources() {
    [ -x "$program" ] && [ -z "$(find "$top/crates.txt" "$top"/crates/*/{src,specs,proofs} \
        \( -name '*.rt' -o -name '*.antt' -o -name crates.txt -o -type d \) -newer "$program" -print -quit)" ]
}

# rt run ends with running what it built, here on no words, to which the program answers its usage line and status 1.
prove() {
    local started said
    started=$(date +%s)
    echo "run.sh: proving and building, which takes long the first time" >&2
    said=$(rt run) || [ $? = 1 ]
    case $said in
        "usage: dyntensor "*) touch -d "@$started" "$program" ;;
        *) fail "the program isn't proved and built: see above" ;;
    esac
}

run_proved() {
    echo "run.sh: this is the proved program" >&2
    (cd "$folder/data" && "$program" "${words[@]}")
}

run_before_proof() {
    local files=() file status log=$room/log
    echo "run.sh: this is the program before any proof; tools/run.sh --prove builds the proved one" >&2
    for file in "$folder"/data/*; do
        files+=(--data "$(basename "$file")=$file")
    done
    # where it can't be made, rt try ends with a status that is no run's
    rt try "${files[@]}" -- "${words[@]}" 2>"$log" || status=$?
    cat "$log" >&2
    grep -q '^checked: ended status=' "$log" || fail "the program can't be made: see above"
    return "${status:-0}"
}

is_to_prove=
[ "${1:-}" != --prove ] || { is_to_prove=1 && shift; }
[ $# -le 1 ] || fail "usage: tools/run.sh [--prove] [FOLDER]"
folder=$(realpath "${1:-$top/crates/dyntensor}")
[ -f "$folder/args" ] && [ -d "$folder/data" ] || fail "there is no args or no data/ in $folder"
mapfile -t words <"$folder/args"
wanted=$(cat "$folder/status" 2>/dev/null || echo 0)

cd "$top/crates/dyntensor"
[ -z "$is_to_prove" ] || prove
room=$(mktemp -d)
trap 'rm -rf "$room"' EXIT
status=0
if is_for_these_sources; then run_proved || status=$?; else run_before_proof || status=$?; fi >"$room/report"
cat "$room/report"
[ "$status" = "$wanted" ] || fail "it ended with status $status, and not $wanted"
if [ -f "$folder/any_order" ]; then
    said=$(python3 -B "$top/tools/check_report.py" "$folder/data" "${words[1]}" "$room/report") || fail "the report is wrong: $said"
    echo "run.sh: the sessions take turns in any order; of this report tools/check_report.py says: $said" >&2
fi
