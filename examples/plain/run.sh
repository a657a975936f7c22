#!/bin/sh
# Scans the table t of the log in this folder.
# usage: examples/plain/run.sh [--proved]
#
# Without a word: by the proved program, where `--proved` has built it of the sources as they are now; else by a build
# of the same sources without their proofs, which takes well under a minute.
# --proved: proves every crate that the program stands on, lowest first, then builds it (the first time takes long).
set -eu
here=$(cd "$(dirname "$0")" && pwd)
top=$(cd "$here/../.." && pwd)
crate="$top/crates/standby"
built="$crate/out/standby"
stamp="$crate/out/standby.sources"
segment="archive/000000010000000000000002"
schema="base/schema.toml"

# The sources of which a build is made, as one checksum.
sources() {
    (cd "$top" && find crates.txt crates -path '*/out' -prune -o -type f \( -name '*.rt' -o -name '*.antt' -o -name crates.txt \) -print |
        LC_ALL=C sort | xargs cksum | cksum)
}

is_proved() {
    [ -x "$built" ] && [ -f "$stamp" ] && [ "$(sources)" = "$(cat "$stamp")" ]
}

prove() {
    rm -f "$built" "$stamp"
    now=$(sources)
    log=$(mktemp)
    trap 'rm -f "$log"' EXIT
    # `rt run` proves, builds and runs, here without words, which the program answers with its status 2.
    (cd "$crate" && rt run) 2>&1 | tee "$log" | sed -n 's/^crate \([a-z0-9_]*\): .*/proved so far: \1/p' >&2 || true
    if [ ! -x "$built" ]; then
        cat "$log" >&2
        exit 1
    fi
    echo "$now" >"$stamp"
}

case "${1-}" in
    "") ;;
    --proved) is_proved || prove ;;
    *)
        echo "usage: $0 [--proved]" >&2
        exit 2
        ;;
esac
cd "$here"
if is_proved; then
    exec "$built" scan t
fi
echo "This build is not proved; '$0 --proved' proves every crate below the program first." >&2
cd "$crate"
exec rt try --data "$segment=$here/$segment" --data "$schema=$here/$schema" -- scan t
