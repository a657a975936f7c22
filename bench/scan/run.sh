#!/bin/sh
# Times a scan of 1,000,000 rows of (int4, int8, text of 80 bytes) beside COPY .. TO STDOUT of an installed PostgreSQL
# (15 or 16) over the same rows.
# usage: bench/scan/run.sh [--rows N] [--rounds N]
set -e
here="$(cd "$(dirname "$0")" && pwd)"
crate="$here/../../crates/standby"
# Without words the program ends with status 2.
(cd "$crate" && rt run >/dev/null 2>&1) || true
exec python3 -B "$here/compare.py" "$crate/out/standby" "$@"
