#!/usr/bin/env bash
# The host's tests over the static library that build.sh made: C programs, the Rust crate, the command line, the examples.
set -euo pipefail
cd "$(dirname "$0")/.."
. ./machine.sh
out=host/target/c
mkdir -p "$out"
for source in host/examples/case1.c host/tests/header.c host/tests/limits.c; do
    # -z now: what is linked at the first call would take stack of its own.
    "$cc" -O1 -Wl,-z,now -Wall -Wextra -Werror -std=c99 -Iinclude "$source" target/staticlib/libcadnohal.a -o "$out/$(basename "$source" .c)"
done
line=$($start "$out/case1")
[ "$line" = '1 0 0 0 2 0 1 0 1 0 0' ] || { echo "case1 printed '$line'"; exit 1; }
$start "$out/header"
$start "$out/limits"
if command -v c++ >/dev/null; then
    c++ -Wall -Wextra -Werror -std=c++11 -fsyntax-only -x c++ include/cadnohal.h
fi
needs=$(nm -u target/staticlib/libcadnohal.a | awk '$1 == "U" { print $2 }' | sort -u)
[ "$needs" = memset ] || { echo "the archive needs '$needs'"; exit 1; }
cargo test --offline --quiet --manifest-path host/Cargo.toml
# The command line over a library of another form.
mkdir -p "$out/other"
"$cc" -Wall -Wextra -Werror -std=c99 -c host/tests/other.c -o "$out/other/other.o"
"$("$cc" -print-prog-name=ar)" rcs "$out/other/libcadnohal.a" "$out/other/other.o"
CADNOHAL_LIB_DIR="$PWD/$out/other" cargo build --offline --release --quiet --manifest-path host/Cargo.toml --target-dir "$out/other"
status=0
line=$($start "$out/other/${release#target/}/cadnohal" check examples/beamformer.txt 2>&1) || status=$?
abi=$(sed -n 's/^#define CADNOHAL_ABI //p' include/cadnohal.h)
[ "$status: $line" = "3: cadnohal: the library's ABI is 0, this program's is $abi" ] || { echo "over another library: '$status: $line'"; exit 1; }
for module in examples/*.txt; do
    $start "host/$release/cadnohal" compact "$module" >"$out/once.txt"
    $start "host/$release/cadnohal" compact "$out/once.txt" >"$out/twice.txt"
    cmp "$out/once.txt" "$out/twice.txt"
done
echo 'host: C, Rust, command line and examples passed'
