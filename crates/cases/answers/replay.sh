#!/usr/bin/env bash
# Holds the program `cases`, once `rt ci`, or `rt run` in its folder, has proved and built it, to the recorded answers.
set -euo pipefail
shopt -s nullglob
cd "$(dirname "$0")"
. ../../../machine.sh
program=../out/cases
[ -x "$program" ] || { echo "replay.sh: no crates/cases/out/cases; rt run in crates/cases builds it" >&2; exit 1; }
files=(answers-*.stdin) answers=(answers-*.stdout)
count=$(cat "${files[@]}" /dev/null | grep -c '^# [0-9]*: ') || { echo "replay.sh: no recorded answers" >&2; exit 1; }
[ ${#files[@]} = ${#answers[@]} ] || { echo "replay.sh: ${#files[@]} files of cases, ${#answers[@]} of answers" >&2; exit 1; }
for file in "${files[@]}"; do
    $start "$program" <"$file" | cmp - "${file%.stdin}.stdout"
done
echo "cases: $count recorded answers replayed"
