#!/usr/bin/env bash
# All tests. `rt ci` comes first. Its last line is said again at the end, where all else has passed. What the machine lacks is installed
# before, since that may fail.
set -euo pipefail
cd "$(dirname "$0")"
. ./machine.sh
said=$(mktemp)
trap 'rm -f "$said"' EXIT
rt ci | tee "$said"
# An edit that cannot be applied or read passes `rt ci`, but not here.
if grep -qE '^rt: ok.*, [1-9][0-9]* bad' "$said" || ! grep -q '^rt: ok' "$said"; then
    echo 'test.sh: must-fail edits are bad, or rt ci did not end well'
    exit 1
fi
echo "${SECONDS} s until here; now the hosts, the harness and the recorded answers"
bash build.sh
bash host/test.sh
bash harness/test.sh
# `rt ci` leaves the programs that it built.
[ -x crates/cases/out/cases ] || (cd crates/cases && rt run <stdin >/dev/null)
bash crates/cases/answers/replay.sh
echo "${SECONDS} s in all"
tail -n 1 "$said"
