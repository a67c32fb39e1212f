# shellcheck shell=bash
# Sourced by the scripts that link the engine's archive with Rust and C: finds their compilers, and makes the archive.
# The archive is made on x86-64 and for x86-64. On another processor one that was made elsewhere (--archive) can be tried: everything is
# compiled for x86-64 and runs under an emulator.
#
# After `find_compilers INSTALL`, `rust` is cargo with its words for this machine, `c_compiler` compiles C, and `run_x86` runs what they made.
# INSTALL is yes or no: whether Debian's packages may be installed where something is missing.
# The script that sources this says in `here` where the repository is. A function that cannot go on says why and returns 3: nothing was tested then.

NOT_MADE=3

say() { printf '%s\n' "$*"; }

# What this machine needs, and whether it is all there.
find_compilers() { # INSTALL
    machine=$(uname -m)
    if [ "$(uname -s)" != Linux ]; then
        say "the archive is for Linux on x86-64, and this is $(uname -s)"
        return "$NOT_MADE"
    fi
    c_compiler=cc emulate=()
    if [ "$machine" != x86_64 ]; then
        c_compiler=x86_64-linux-gnu-gcc emulate=(qemu-x86_64)
        [ ! -d /usr/x86_64-linux-gnu ] || emulate+=(-L /usr/x86_64-linux-gnu)
        # under the emulator glibc copies and clears large blocks byte by byte unless told otherwise
        export GLIBC_TUNABLES=glibc.cpu.hwcaps=-ERMS,-FSRM
    fi
    list_lacking
    [ "${#lacking[@]}" -eq 0 ] && return 0
    install_lacking "$1" || return "$NOT_MADE"
    list_lacking
    [ "${#lacking[@]}" -eq 0 ] && return 0
    say "still missing: ${lacking[*]}"
    return "$NOT_MADE"
}

# What is missing, and Debian's packages that have it.
list_lacking() {
    packages=() lacking=()
    need cargo cargo
    need rustc rustc
    if [ "$machine" = x86_64 ]; then
        need cc gcc
        return
    fi
    need x86_64-linux-gnu-gcc gcc-x86-64-linux-gnu
    need "${emulate[0]}" qemu-user
    if ! rust_for_x86; then
        lacking+=("Rust's standard library for x86-64 (with rustup: rustup target add x86_64-unknown-linux-gnu)")
        packages+=(libstd-rust-dev:amd64)
    fi
}

need() { # COMMAND PACKAGE
    "$1" --version >/dev/null 2>&1 && return
    lacking+=("the command $1")
    packages+=("$2")
}

rust_for_x86() {
    local sysroot
    sysroot=$(rustc --print sysroot 2>/dev/null) && [ -d "$sysroot/lib/rustlib/x86_64-unknown-linux-gnu/lib" ]
}

install_lacking() { # INSTALL
    local part
    for part in "${lacking[@]}"; do say "missing here: $part"; done
    if [ ! -f /etc/debian_version ] || ! command -v apt-get >/dev/null 2>&1; then
        say 'this is no Debian: install a Rust compiler (1.63 or later, with cargo) and a C compiler, both for x86-64'
        return 1
    fi
    if [ "$1" != yes ] || [ "$(id -u)" -ne 0 ]; then
        say "on Debian, as root: apt-get install ${packages[*]}"
        return 1
    fi
    say "installing ${packages[*]} .."
    if [ "$machine" != x86_64 ]; then
        dpkg --add-architecture amd64 || return 1
    fi
    if ! { apt-get update && DEBIAN_FRONTEND=noninteractive apt-get install -y --no-install-recommends "${packages[@]}"; } >"$here/target/apt.log" 2>&1; then
        tail -n 3 "$here/target/apt.log"
        say 'apt-get could not install them (target/apt.log says why)'
        return 1
    fi
    hash -r
}

# cargo in the folder rust, in release, with no registry; words after the subcommand go to cargo.
rust() { # SUBCOMMAND WORDS...
    local subcommand=$1
    shift
    # cargo wants a folder of its own that it can write to
    [ -w "${CARGO_HOME:-${HOME:-/}/.cargo}" ] || export CARGO_HOME=$here/rust/target/cargo-home
    if [ "$machine" = x86_64 ]; then
        (cd "$here/rust" && cargo "$subcommand" --offline --release --quiet "$@")
    else
        (cd "$here/rust" && CARGO_TARGET_X86_64_UNKNOWN_LINUX_GNU_LINKER=$c_compiler CARGO_TARGET_X86_64_UNKNOWN_LINUX_GNU_RUNNER="${emulate[*]}" \
            cargo "$subcommand" --offline --release --quiet --target x86_64-unknown-linux-gnu "$@")
    fi
}

run_x86() { # PROGRAM WORDS...
    ${emulate[@]+"${emulate[@]}"} "$@"
}

# The archive of the crate boundary_c, proved where anything changed since it was last; or the one in a folder that was named.
find_archive() { # FOLDER
    if [ -n "$1" ]; then
        [ -f "$1/libboundary.a" ] || { say "no libboundary.a in $1"; return 2; }
        QUASARHORN_ARCHIVE=$(cd "$1" && pwd -P)
    else
        command -v rt >/dev/null 2>&1 || { say 'the command rt is not on the path'; return 2; }
        mkdir -p "$here/target"
        if ! "$here/tests/archive" >"$here/target/staticlib.log" 2>&1; then
            tail -n 5 "$here/target/staticlib.log"
            say 'the archive was not made (target/staticlib.log says why)'
            return 2
        fi
        QUASARHORN_ARCHIVE=$here/target/staticlib
    fi
    export QUASARHORN_ARCHIVE
}
