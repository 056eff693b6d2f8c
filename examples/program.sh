# Sets `program` to the proved program. Where it isn't built yet, it is proved and built first.
here=$(cd "$(dirname "$0")" && pwd) || exit
program=$here/../crates/netreview/out/netreview
if [ ! -x "$program" ]; then
    if ! command -v rt >/dev/null; then
        echo "$0: the program isn't built, and the Rattle kit that builds it isn't there: 'rt version' has to answer" >&2
        exit 127
    fi
    log=$(mktemp) || exit
    echo "$0: the program isn't built yet: proving and building it, which takes some minutes (see $log)" >&2
    (cd "$here/../crates/netreview" && rt run --) >"$log" 2>&1 </dev/null
    if [ ! -x "$program" ]; then
        echo "$0: it wasn't built; $log ends:" >&2
        tail -n 5 "$log" >&2
        exit 126
    fi
fi
