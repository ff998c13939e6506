# To be sourced: `with_progress LOG COMMAND..` runs a command that proves crates, its output in a log, and on a terminal tells how far it is.
tell_progress() { # LOG
    while sleep 1 && kill -0 $$ 2>/dev/null; do
        printf '\r%d crates proved ' "$(grep -c -e '^logic=proved' -e '^rt: [a-z0-9_]* is kept' "$1")" >&2
    done
}

with_progress() {
    local log=$1 teller='' status=0
    shift
    : >"$log"
    if [ -t 2 ]; then
        tell_progress "$log" &
        teller=$!
    fi
    "$@" >"$log" 2>&1 || status=$?
    if [ -n "$teller" ]; then
        kill "$teller"
        wait "$teller" 2>/dev/null || true
        printf '\r\033[K' >&2
    fi
    return "$status"
}
