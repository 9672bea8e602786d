# shellcheck shell=bash
# Where rt leaves the program of a crate, how it is built, and how it is run on this machine: it is for x86-64. A script that reads this file has
# `fail MESSAGE`, and `top` where it is not at the top of the repository.

machine=$(uname -m)
crates=${top:+$top/}crates

check_machine() {
    case $machine in
        x86_64 | aarch64) ;;
        *) fail "this machine is $machine, and the program runs on x86_64 and aarch64 alone" ;;
    esac
}

# program_of NAME: puts the program of crates/NAME into `program`. Both rt ci and rt run leave it there.
program_of() { program=$crates/$1/out/$1; }

# Whether there is no program, or something in the crates has changed since it was built. Their folders out/ are rt's own.
outdated() {
    [ ! -x "$program" ] || [ "$crates.txt" -nt "$program" ] \
        || [ -n "$(find "$crates"/*/src "$crates"/*/specs "$crates"/*/proofs -newer "$program" -print -quit)" ]
}

# build LOG: proves and builds the program, by rt run, which runs it too. It is given no input, and the script's own output is not for it.
build() {
    # what changes from here on is newer than the program
    touch "$1.started"
    if ! (cd "${program%/out/*}" && rt run) < /dev/null > "$1" 2>&1; then
        rm -f "$program"
        return 1
    fi
    # rt leaves the program alone where a change was none
    touch -c -r "$1.started" "$program"
}

# command_for PROGRAM: puts the words of the command into `command`. On Arm the kit has an emulator, and a C library to run it with.
# shellcheck disable=SC2034 # the caller uses it
command_for() {
    local rt kit tools word
    command=("$1")
    if [ "$machine" = aarch64 ]; then
        rt=$(command -v rt) || fail "rt, the command of the Rattle kit, is not on PATH, and on Arm the kit's emulator runs the program"
        kit=${RATTLE_HOME:-$(dirname "$(dirname "$(readlink -f "$rt")")")}
        tools=$kit/on/aarch64/toolchain
        [ -x "$tools/bin/qemu-x86_64" ] || fail "$tools/bin/qemu-x86_64 is missing: install the Rattle kit with its Arm part"
        for word in "${!QEMU_@}"; do unset "$word"; done
        command=("$tools/bin/qemu-x86_64" "$tools/lib/ld-linux-x86-64.so.2" --library-path "$tools/lib" "$1")
    fi
}
