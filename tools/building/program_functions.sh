# What ./build and run-program share. They source it, with their name in `me` and the top of the
# repository in `top`.

# In a shell of its own, which alone ends where nobody reads any more, as in `2>&1 | head -n 1`.
say() {
    (printf '%s: %s\n' "$me" "$1" >&2)
}

fail() {
    say "$1"
    exit 3
}

# There is no such program, or a file that it is made of is newer.
is_stale() {
    [ -x "$1" ] && [ -s "$1" ] || return 0
    newer=$(find "$@" "$top/crates.txt" "$top"/crates/*/src "$top"/crates/*/specs \
        "$top"/crates/*/proofs -newer "$1" 2>/dev/null | head -n 1)
    [ -n "$newer" ]
}

# What a build calls. If standard error is closed, /dev/null takes its place, so that no file does.
need_tools() {
    (: >&2) || exec 2>/dev/null
    for tool in rt python3; do
        command -v "$tool" >/dev/null 2>&1 || case $tool in
            rt) fail 'rt, the command of the Rattle toolchain, is not on the PATH' ;;
            *) fail 'python3 is not on the PATH' ;;
        esac
    done
}

# Calls a builder, which prints on standard error alone, and ends where this script is stopped.
call() {
    "$@" >&2 </dev/null &
    called=$!
    trap 'kill "$called" 2>/dev/null; wait "$called"; exit 3' HUP INT TERM
    wait "$called" || exit 3
    trap - HUP INT TERM
}

# About how many minutes a proof of so many processor minutes takes, on this computer.
minutes() {
    processors=$(nproc 2>/dev/null || getconf _NPROCESSORS_ONLN 2>/dev/null || echo 4)
    if [ "$processors" -ge 6 ]; then
        echo $((($1 + 5) / 6))
    else
        echo $((($1 + processors - 1) / processors))
    fi
}
