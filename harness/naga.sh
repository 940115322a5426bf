#!/usr/bin/env bash
# Gets the crate naga 30.0.1 and all that it needs, for crate/Cargo.toml. Nothing is installed.
#
#     bash naga.sh
#
# Afterwards `cargo --config target/naga/cargo.toml` finds the crate. Where it is taken from:
#
#     NAGA_DIR=FOLDER    a directory registry, as `cargo vendor` makes one
#     NAGA_DIR=cargo     the registry that cargo is set up with
#     NAGA_DIR not set   Debian's unstable suite, by this machine's package client, into target/naga/registry
#
# Ends with one line and 0 where the crate is there, with one line and 3 where it can't be had or is another version.
set -euo pipefail
cd "$(dirname "$0")"
version=30.0.1
place=$PWD/target/naga
config=$place/cargo.toml
mkdir -p "$place"

missing() {
    rm -f "$config"
    echo "the crate naga $version can't be had: $1"
    exit 3
}

# The folder of naga in a directory registry; nothing where the registry has none of this version.
naga_in() {
    local folder
    for folder in "$1/naga-$version" "$1/naga"; do
        if grep -qs "^version = \"$version\"" "$folder/Cargo.toml"; then
            echo "$folder"
            return
        fi
    done
}

# Writes the settings for a directory registry.
from_folder() {
    local naga
    naga=$(naga_in "$1")
    [ -n "$naga" ] || missing "$1 does not hold it"
    cat >"$config" <<EOT
[source.crates-io]
replace-with = "folder"
[source.folder]
directory = "$1"
[net]
offline = true
[env]
NAGA_CRATE_SRC = "$naga/src"
EOT
    echo "the crate naga $version, from $2"
}

# Has cargo fetch the crate from its own registry.
from_cargo() {
    local said naga
    said=$(CARGO_NET_RETRY=1 cargo fetch --manifest-path crate/Cargo.toml 2>&1) || missing "$(tail -n 1 <<<"$said")"
    naga=$(cargo metadata --format-version 1 --offline --manifest-path crate/Cargo.toml |
        sed -n "s|.*\"manifest_path\":\"\([^\"]*/naga-$version\)/Cargo.toml\".*|\1|p")
    printf '[env]\nNAGA_CRATE_SRC = "%s/src"\n' "$naga" >"$config"
    echo "the crate naga $version, from cargo's registry"
}

# Runs a program of the package client on folders of its own: this machine's archive, the unstable suite.
client() {
    "$@" -o Dir::State="$work/state" -o Dir::State::status="$work/status" -o Dir::Cache="$work/cache" \
        -o Dir::Etc::sourcelist="$work/unstable.list" -o Dir::Etc::sourceparts=/dev/null \
        -o Dir::Etc::preferences=/dev/null -o Dir::Etc::preferencesparts=/dev/null \
        -o APT::Sandbox::User=root -o Acquire::Retries=2 -o Acquire::http::Timeout=30 2>>"$work/log"
}

# Fetches the packages of the crate and of what it needs, checked by the client, and unpacks them.
from_packages() {
    local archive found names package
    command -v apt-get >/dev/null && command -v dpkg-deb >/dev/null || missing 'this machine has no package client of Debian'
    archive=$(apt-get indextargets --format '$(REPO_URI) $(COMPONENT)' 'Created-By: Packages' 2>/dev/null |
        awk '$2 == "main" && !/security/ && !found++ { print $1 }') || missing 'the package client does not name its archives'
    [ -n "$archive" ] || missing 'no package archive is set up'
    work=$(mktemp -d "$place/packages.XXXXXX")
    trap 'rm -rf "$work"' EXIT
    mkdir -p "$work"/{state/lists/partial,cache/archives/partial,fetched}
    : >"$work/status"
    echo "deb [signed-by=/usr/share/keyrings/debian-archive-keyring.gpg] $archive unstable main" >"$work/unstable.list"
    client apt-get -qq update -o APT::Update::Error-Mode=any >>"$work/log" || missing 'the unstable suite cannot be read'
    found=$(client apt-cache policy librust-naga-dev | sed -n 's/^ *Candidate: //p') || missing 'the unstable suite cannot be asked'
    case $found in
    "$version"-*) ;;
    *) missing "the unstable suite has ${found:-none}" ;;
    esac
    names=$(client apt-get -s --no-install-recommends install librust-naga-dev |
        sed -n 's/^Inst \(librust-[^ ]*\) .*/\1/p') || missing 'the unstable suite lacks something that it needs'
    (cd "$work/fetched" && client apt-get -qq download $names) >>"$work/log" || missing 'its packages cannot be fetched'
    for package in "$work"/fetched/*.deb; do
        dpkg-deb -x "$package" "$work/unpacked" || missing 'its packages cannot be unpacked'
    done
    rm -rf "$place/registry"
    mv "$work/unpacked/usr/share/cargo/registry" "$place/registry"
}

rm -f crate/Cargo.lock # another source has other versions of what naga needs
case ${NAGA_DIR:-} in
cargo) from_cargo ;;
'')
    [ -n "$(naga_in "$place/registry")" ] || from_packages
    from_folder "$place/registry" "Debian's packages"
    ;;
*) from_folder "$(realpath -m "$NAGA_DIR")" "$NAGA_DIR" ;;
esac
