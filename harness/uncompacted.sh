#!/usr/bin/env bash
# The shaders as naga's WGSL front end makes them, before its own pass: its last act is compact with Yes, which takes away
# what is abstract, and what has no name and no use. In a copy of the crate that one call is left out; all else in the copy
# is as it was. The modules are then not valid before a pass, and must be valid after it.
set -euo pipefail
cd "$(dirname "$0")"
. ../machine.sh
bash naga.sh
source=$(sed -n 's/^NAGA_CRATE_SRC = "\(.*\)"$/\1/p' target/naga/cargo.toml)
copy=$PWD/target/uncompacted/naga
rm -rf "$copy"
mkdir -p "${copy%/*}"
cp -rL "${source%/src}" "$copy"
front=$copy/src/front/wgsl/lower/mod.rs
call='crate::compact::compact(&mut module, KeepUnused::Yes);'
[ "$(grep -cF "$call" "$front")" = 1 ] || { echo "the front end's own pass is not where it was"; exit 1; }
sed -i "s/${call/&/\\&}/let _ = KeepUnused::Yes;/" "$front"
sed -i '/^\[dev-dependencies/,/^$/d' "$copy/Cargo.toml" # those of a copy would be asked for
RUSTFLAGS=--cap-lints=allow cargo --config target/naga/cargo.toml --config "patch.crates-io.naga.path='$copy'" \
    build --offline --release --quiet --manifest-path crate/Cargo.toml --target-dir target/uncompacted
rm -f crate/Cargo.lock
$start "target/uncompacted/${release#target/}/harness" shaders "$@"
