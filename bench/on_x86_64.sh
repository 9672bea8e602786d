# shellcheck shell=bash
# Building, running and counting on an x86-64 machine. bench/common.sh reads this file.

check_tools() {
    need rustc "install Rust"
    need cc "apt-get install gcc libc6-dev"
    need valgrind "apt-get install valgrind"
}

# The folder of keccak's source, as the installed package names it, or nothing.
keccak_folder() {
    local lib
    lib=$(dpkg-query -L librust-keccak-dev 2> /dev/null | grep '/keccak-[0-9.]*/src/lib\.rs$' || true)
    if [ -f "$lib" ]; then
        echo "${lib%/src/lib.rs}"
    fi
}

package_version() { dpkg-query -W -f '${Version}' librust-keccak-dev; }

compile() { rustc "$@"; }

# build_program PROGRAM RUSTC-WORDS..
build_program() {
    local built=$1
    shift
    compile "$@" -L "native=$out" -l static=bench -l c -o "$built"
}

run() { "$@"; }

count() { valgrind --tool=callgrind --callgrind-out-file=/dev/null "$@" 2>&1 > /dev/null | sed -n 's/.*Collected : //p'; }

counted_by() { echo "$(valgrind --version) --tool=callgrind"; }

# user_time COMMAND..: in seconds
user_time() {
    local TIMEFORMAT=%U
    for _ in 1 2 3 4 5 6 7 8 9; do
        { time "$@" > /dev/null 2>&1; } 2>&1 || exit 1
    done | sort -n | head -1
}

timed_by() { echo "in seconds for $1, the least of nine runs"; }
