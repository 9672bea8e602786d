# shellcheck shell=bash
# What bench/permutation and bench/session share: the machine's tools, Debian's keccak, the counts and the table. They read this file, and
# bench/journal does for its first lines.
me=${0##*/}
out=target/bench
program=$out/$me
release=(-C opt-level=3 -C codegen-units=1 -C panic=abort)

fail() { echo "bench/$me: $1" >&2; exit 1; }
need() { command -v "$1" > /dev/null || fail "$1 is missing: $2"; }

# quietly WHAT COMMAND..: where it fails one line, and what the command wrote in a file
quietly() {
    local what=$1
    shift
    "$@" > "$out/log" 2>&1 || fail "$what failed, see $out/log"
}

# whole NAME VALUE: a script's argument
whole() {
    case "$2" in
        '' | 0* | *[!0-9]*) fail "$1 is a number from 1 on" ;;
    esac
}

need rt "install the Rattle kit"
# Each file has: check_tools, keccak_folder, package_version, compile, build_program, run, count, counted_by, user_time, timed_by.
case "$(uname -m)" in
    x86_64) . bench/on_x86_64.sh ;;
    aarch64) . bench/on_aarch64.sh ;;
    *) fail "this machine is $(uname -m): only x86_64 and aarch64 are supported" ;;
esac

# Our side, as libbench.a. rt builds the crate of the folder that it is called in.
build_ours() { (cd crates/bench_c && rt lib) && cp crates/bench_c/out/libbench_c.a "$out/libbench.a"; }

# start TIMES: what has to be there, an empty folder, and our side
start() {
    whole TIMES "$1"
    check_tools
    rm -rf "$out"
    mkdir -p "$out"
    quietly "rt lib in crates/bench_c" build_ours
}

# keccak_field NAME: what the Cargo.toml of Debian's keccak says
keccak_field() { sed -n "s/^$1 = \"\(.*\)\"\$/\1/p" "$(keccak_folder)/Cargo.toml" | head -1; }

no_keccak() { echo "the source of Debian's package librust-keccak-dev is not there: install it, or on Arm unpack it"; }
keccak_named() { echo "keccak $(keccak_field version), Debian's package librust-keccak-dev $(package_version)"; }

# build_library NAME FILE RUSTC-WORDS..: a library of its own, as cargo builds it
build_library() {
    local name=$1 file=$2
    shift 2
    quietly "building $file" compile "${release[@]}" --cap-lints allow "$@" \
        --crate-type rlib --crate-name "$name" "$file" -o "$out/lib$name.rlib"
}

# Where Cargo.toml names no edition it is 2015.
build_keccak() {
    local edition
    edition=$(keccak_field edition)
    build_library keccak "$(keccak_folder)/src/lib.rs" --edition "${edition:-2015}"
}

# build_bench RUSTC-WORDS..: the script's own program, over our side and what was built beside it
build_bench() {
    quietly "building bench/$me.rs" build_program "$program" "${release[@]}" "$@" --edition 2021 "bench/$me.rs"
}

# bytes_of SIDE WORD..: what the program writes, in a file
bytes_of() { run "$program" "$@" > "$out/$1.bytes" || fail "$program $* failed"; }

# same_bytes WHAT SIDE WORD..: the side writes the bytes that ours wrote last
same_bytes() {
    local what=$1
    shift
    bytes_of "$@"
    cmp -s "$out/ours.bytes" "$out/$1.bytes" || fail "ours and $1 differ in their bytes after $what"
}

# per_call TIMES WORD..: a run with all calls less a run with none. Start-up is the same in both, since both numbers have as many digits.
per_call() {
    local times=$1 all none
    shift
    all=$(count "$program" "$@" "$times")
    none=$(count "$program" "$@" "${times//[0-9]/0}")
    [ "${all:-0}" -gt "${none:-0}" ] || fail "$(counted_by) gave no count of $*"
    echo $(((all - none + times / 2) / times))
}

ratio() { awk -v ours="$1" -v theirs="$2" 'BEGIN { printf "%.3f", ours / theirs }'; }

# how_made COUNTED: the last lines, under the table
how_made() {
    echo "built: ours by $(rt version), the rest by $(compile --version) with ${release[*]}"
    echo "machine: $(uname -m)"
    echo "counted: by $(counted_by), $1"
}
