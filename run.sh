#!/usr/bin/env bash
# The main job: builds all that is needed, and compacts the modules given, or those in examples/.
set -euo pipefail
root=$(cd "$(dirname "$0")" && pwd)
bash "$root/build.sh"
. "$root/machine.sh"
if [ $# -eq 0 ]; then
    cd "$root"
    set -- examples/*.txt
fi
for module in "$@"; do
    echo "== $module"
    $start "$root/host/$release/cadnohal" compact "$module"
done
