# For the scripts pathjob, pathflat and pathnew: `build NAME` proves and builds a program where its sources are newer, and tells where it is.
here=$(cd "$(dirname "$0")" && pwd)
build() {
    program="$here/crates/$1/out/$1"
    if [ ! -x "$program" ] || [ -n "$(find "$here"/crates/*/src "$here"/crates/*/specs "$here"/crates/*/proofs -newer "$program" \( -name '*.rt' -o -name '*.antt' \) -print -quit 2>/dev/null)" ]; then
        echo "building $1, which proves it first" >&2
        mkdir -p "$here/target"
        rm -f "$program"
        # It runs what it has built, on no input: what it says then, and its status, do not count.
        (cd "$here/crates/$1" && rt run) </dev/null >"$here/target/$1.log" 2>&1 || true
        if [ ! -x "$program" ]; then
            cat "$here/target/$1.log" >&2
            exit 2
        fi
        touch "$program"
    fi
}
