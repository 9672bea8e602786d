# shellcheck shell=bash
# Building x86-64 programs on an Arm machine, and running and counting them under the kit's emulator. bench/common.sh reads this file.
# Debian's packages are unpacked and not installed, since one of them is for the other architecture.
[ -n "${BENCH_PACKAGES:-}" ] || fail "set BENCH_PACKAGES to a folder with these Debian packages unpacked (apt-get download, dpkg -x): rustc-web, the libstd-rust-web-* and libllvm* that it depends on, libstd-rust-web-dev:amd64, librust-keccak-dev"

kit=$(dirname "$(dirname "$(readlink -f "$(command -v rt)")")")
tools=$kit/on/aarch64/toolchain/bin
# the C library for x86-64 that the kit's programs run with
libc=$kit/toolchain/lib
loader=$libc/ld-linux-x86-64.so.2
rust_x86_64=$BENCH_PACKAGES/usr/lib/rustlib/x86_64-unknown-linux-gnu/lib

check_tools() {
    need "$BENCH_PACKAGES/usr/bin/rustc" "unpack rustc-web there"
    need "$tools/qemu-x86_64" "install the Rattle kit with its Arm part"
    need "$tools/ld.lld" "install the Rattle kit with its Arm part"
    compgen -G "$rust_x86_64/libcore-*.rlib" > /dev/null || fail "$rust_x86_64/libcore-*.rlib is missing: unpack libstd-rust-web-dev:amd64 there"
    compgen -G "$BENCH_PACKAGES/usr/lib/*/libLLVM*" > /dev/null || fail "$BENCH_PACKAGES/usr/lib/*/libLLVM* is missing: unpack the libllvm* of rustc-web there"
}

# The folder of keccak's source, or nothing.
keccak_folder() {
    local lib
    lib=$(compgen -G "$BENCH_PACKAGES/usr/share/cargo/registry/keccak-[0-9]*/src/lib.rs" || true)
    echo "${lib%/src/lib.rs}"
}

# The first of the unpacked changelogs names the version of the package.
package_version() { zcat "$BENCH_PACKAGES"/usr/share/doc/librust-keccak-dev/changelog.Debian*.gz | sed -n '1s/.*(\(.*\)).*/\1/p'; }

compile() {
    LD_LIBRARY_PATH=$BENCH_PACKAGES/usr/lib/aarch64-linux-gnu:$BENCH_PACKAGES/usr/lib "$BENCH_PACKAGES/usr/bin/rustc" \
        --sysroot "$BENCH_PACKAGES/usr" --target x86_64-unknown-linux-gnu "$@"
}

# build_program PROGRAM RUSTC-WORDS..: linked by hand with all that was built before, since there is no cc for x86-64
build_program() {
    local built=$1 libraries
    shift
    mapfile -t libraries < <(compgen -G 'target/bench/lib*.rlib')
    compile "$@" --emit obj -o "$built.o" \
        && "$tools/ld.lld" -pie -z now --gc-sections --unresolved-symbols=ignore-in-shared-libs -dynamic-linker "$loader" -o "$built" \
            "$libc/Scrt1.o" "$libc/crti.o" "$built.o" "$out/libbench.a" "${libraries[@]}" \
            "$rust_x86_64"/libcore-*.rlib "$rust_x86_64"/libcompiler_builtins-*.rlib \
            "$libc/libc.so.6" "$libc/libc_nonshared.a" "$libc/crtn.o"
}

emulate() { "$tools/qemu-x86_64" "$@"; }

run() { emulate "$loader" --library-path "$libc" "$@"; }

# The emulator writes a line for each instruction.
count() { emulate -one-insn-per-tb -d exec,nochain -D >(wc -l) "$loader" --library-path "$libc" "$@" > /dev/null; }

counted_by() { emulate --version | head -1; }

user_time() { :; }

timed_by() { echo "none, since an emulator's time is not the program's"; }
