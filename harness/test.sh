#!/usr/bin/env bash
# The harness's own tests, the recorded answers, and two runs with a fixed seed against the static library that build.sh
# made: over the published files, and over the crate naga itself; over the crate the shaders too. Where the files or the
# crate can't be had one line says so and the rest goes on; with HARNESS_OVER=files, and HARNESS_CRATE=must, that is a
# failure.
set -euo pipefail
cd "$(dirname "$0")"
. ../machine.sh
cargo test --offline --release --quiet
cargo build --offline --release --quiet
$start "$release/harness" replay
over=${HARNESS_OVER:-files}
if [ -z "${HARNESS_OVER:-}" ] && [ ! -d "${NAGA_SRC:-../../shared/docs/src}" ]; then
    over=nothing
    echo 'the published files are not here: nothing is held against them'
fi
$start "$release/harness" run --over "$over" --seconds "${HARNESS_SECONDS:-60}" --seed 1 --threads 2
status=0
said=$(bash naga.sh) || status=$?
echo "$said"
case $status in
0)
    cargo --config target/naga/cargo.toml build --offline --release --quiet --manifest-path crate/Cargo.toml --target-dir target/crate
    $start "target/crate/${release#target/}/harness" run --over crate --seconds "${HARNESS_CRATE_SECONDS:-30}" --seed 1 --threads 2
    cargo --config target/naga/cargo.toml test --offline --release --quiet --manifest-path crate/Cargo.toml --target-dir target/crate over_shaders
    $start "target/crate/${release#target/}/harness" shaders
    ;;
3)
    echo 'nothing was held against the crate itself'
    [ "${HARNESS_CRATE:-}" != must ]
    ;;
*) exit "$status" ;;
esac
