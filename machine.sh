# Sourced by the scripts: how programs over the library, which is x86-64 on every machine, are built and started here.
cc=cc                   # compiles C
start=                  # starts a program that was built
release=target/release  # where cargo puts it
if [ "$(uname -m)" = aarch64 ]; then
    # Arm: compilers for x86-64 and an emulator, from Debian; rustc-web has Rust's standard library for both.
    packages='gcc-x86-64-linux-gnu libc6-dev-amd64-cross qemu-user rustc-web libstd-rust-web-dev:amd64'
    if [ "$(dpkg-query -W -f '${db:Status-Status}\n' $packages 2>&1 | sort -u)" != installed ]; then
        echo "machine.sh: installing $packages"
        output=$({
            dpkg --add-architecture amd64 && apt-get update &&
                DEBIAN_FRONTEND=noninteractive apt-get -o DPkg::Lock::Timeout=300 install -y --no-install-recommends $packages
        } 2>&1 </dev/null) || { echo "$output"; return 1; }
    fi
    cc=x86_64-linux-gnu-gcc
    start=qemu-x86_64
    release=target/x86_64-unknown-linux-gnu/release
    export RUSTC=/usr/bin/rustc RUSTDOC=/usr/bin/rustdoc
    export CARGO_BUILD_TARGET=x86_64-unknown-linux-gnu
    export CARGO_TARGET_X86_64_UNKNOWN_LINUX_GNU_LINKER=$cc
    export CARGO_TARGET_X86_64_UNKNOWN_LINUX_GNU_RUNNER=$start
    export CADNOHAL_EMULATOR=$start      # for tests that start the command line themselves
    export CARGO_PROFILE_DEV_OPT_LEVEL=1 # overflow checks stay on; at 0 the host's tests take four times as long under the emulator
fi
