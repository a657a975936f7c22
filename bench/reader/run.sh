#!/bin/sh
# Times the reader over a log of 16 segments of 16 MiB (or as many as the first argument says), beside
# pg_waldump --quiet of an installed PostgreSQL over the same log.
set -e
here="$(cd "$(dirname "$0")" && pwd)"
program="$here/../../crates/bench_layers"
(cd "$program" && rt run -- help >/dev/null)
exec python3 -B "$here/compare.py" "$program/out/bench_layers" "${1:-16}"
