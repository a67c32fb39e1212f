# Sourced by the scripts that run a program: builds it where anything changed. Programs are for x86-64.
# After `build_program ROOT NAME`, `run_program` runs the program in the current folder, on standard input.

build_program() { # ROOT NAME
    command -v rt >/dev/null 2>&1 || { printf 'the command rt is not on the path\n' >&2; return 2; }
    mkdir -p "$1/target"
    # rt proves and links it, and runs it once where it stands, on nothing: in the crate's folder there is no chart
    if ! (cd "$1/crates/$2" && rt run) </dev/null >"$1/target/$2.log" 2>&1; then
        tail -n 5 "$1/target/$2.log"
        printf 'the program %s was not built (target/%s.log says why)\n' "$2" "$2" >&2
        return 2
    fi
    as_built "$1" "$2"
}

# The program as the last build left it.
as_built() { # ROOT NAME
    program=$1/crates/$2/out/$2
    [ -x "$program" ] && return
    printf 'there is no program crates/%s/out/%s\n' "$2" "$2" >&2
    return 2
}

run_program() {
    "$program"
}
