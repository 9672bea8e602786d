# shellcheck shell=bash
# Builds the oracle: strobe-rs, from its source in the folder STROBE_RS, over stand-ins for the crates it calls, and the program of oracle/src. The scripts
# of this folder read this file, from the top of the repository.
me=${0##*/}
out=target/oracle
strobe_rs=${STROBE_RS:-../shared/docs/src}
standins=(bitflags byteorder keccak subtle zeroize)

fail() { echo "oracle/$me: $1" >&2; exit 1; }

# Nothing to compare with is no failure of the library: the stored answers of crates/trace stand.
absent() { echo "oracle/$me: $1, so nothing is compared; the stored answers of crates/trace stand"; exit 3; }

quietly() {
    local what=$1
    shift
    "$@" > "$out/log" 2>&1 || fail "$what failed, see $out/log"
}

# compile NAME FILE RUSTC-WORDS..
compile() {
    local name=$1 file=$2
    shift 2
    quietly "building $file" rustc --edition 2021 -C opt-level=3 -C codegen-units=1 -L "dependency=$out" --crate-name "$name" "$@" "$file"
}

compile_standins() {
    local name
    for name in "${standins[@]}"; do
        compile "$name" "oracle/standins/$name.rs" --crate-type rlib -o "$out/lib$name.rlib"
    done
    compile zeroize_derive oracle/standins/zeroize_derive.rs --crate-type proc-macro -o "$out/libzeroize_derive.so"
}

# A copy of the two files, the second with our accessor behind it.
copy_strobe_rs() {
    mkdir "$out/strobe_rs"
    cp "$strobe_rs/src/keccak.rs" "$out/strobe_rs/"
    cat "$strobe_rs/src/strobe.rs" oracle/accessor.rs > "$out/strobe_rs/strobe.rs"
    printf '%s\n' '#[macro_use]' 'extern crate zeroize_derive;' 'mod keccak;' 'mod strobe;' 'pub use strobe::*;' > "$out/strobe_rs/lib.rs"
}

# strobe-rs's own two tests, of the permutation and of the version text, are run over the stand-ins.
compile_strobe_rs() {
    local name words=(--cap-lints allow --extern "zeroize_derive=$out/libzeroize_derive.so")
    for name in "${standins[@]}"; do words+=(--extern "$name=$out/lib$name.rlib"); done
    compile strobe_rs "$out/strobe_rs/lib.rs" "${words[@]}" --test -o "$out/strobe_rs_tests"
    quietly "strobe-rs's own tests" "$out/strobe_rs_tests"
    compile strobe_rs "$out/strobe_rs/lib.rs" "${words[@]}" --crate-type rlib -o "$out/libstrobe_rs.rlib"
}

prepare() {
    rustc --version > /dev/null 2>&1 || absent "rustc, the Rust compiler, is not on PATH or does not run"
    command -v cc > /dev/null || absent "cc, which rustc links with, is not on PATH"
    if [ ! -f "$strobe_rs/src/strobe.rs" ] || [ ! -f "$strobe_rs/src/keccak.rs" ]; then
        [ -z "${STROBE_RS:-}" ] || fail "STROBE_RS is $STROBE_RS, and its src has no strobe.rs and keccak.rs"
        absent "$strobe_rs/src has no strobe.rs and keccak.rs, and STROBE_RS names no other folder"
    fi
    # one at a time, since the next line empties the folder
    mkdir -p target
    exec 9> target/oracle.lock
    flock 9
    rm -rf "$out"
    mkdir "$out"
    copy_strobe_rs
}

# 0 is mixed in for the begin position.
drop_position_byte() {
    local line='let to_mix = &mut [old_pos_begin as u8, flags.bits()];'
    [ "$(grep -cF "$line" "$out/strobe_rs/strobe.rs")" = 1 ] || fail "strobe.rs does not mix the begin position in as it did"
    sed -i 's/&mut \[old_pos_begin as u8, /\&mut [0, /' "$out/strobe_rs/strobe.rs"
}

compile_all() {
    compile_standins
    compile_strobe_rs
    compile oracle oracle/src/main.rs --extern "strobe_rs=$out/libstrobe_rs.rlib" -o "$out/oracle"
}
