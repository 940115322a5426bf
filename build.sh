#!/usr/bin/env bash
# The static library, over what is proved already or else proved now, and the command line over it: target/staticlib/libcadnohal.a, host/target/release/cadnohal
# (on Arm host/target/x86_64-unknown-linux-gnu/release/cadnohal).
set -euo pipefail
cd "$(dirname "$0")"
. ./machine.sh
mkdir -p target/log target/staticlib
if ! (cd crates/cadnohal && rt lib) >target/log/staticlib.say 2>&1; then
    cat target/log/staticlib.say
    exit 1
fi
grep '^logic=' target/log/staticlib.say | tail -n 1
cp crates/cadnohal/out/libcadnohal.a target/staticlib/
cargo build --offline --release --quiet --manifest-path host/Cargo.toml
