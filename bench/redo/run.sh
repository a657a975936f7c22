#!/bin/sh
# Times the replay of the blocks of a log of inserts and HOT updates, beside the reader alone and pg_waldump --quiet of an
# installed PostgreSQL over the same log, and tells how time and memory grow up to the last log, 320 MiB over 30,000
# blocks: from logs of fewer blocks (32 MiB over 3,000, 107 MiB over 10,000 and 256 MiB over 24,000), and from shorter
# logs of as many blocks (80 and 160 MiB). Then the same from 32 to 320 MiB of a log by which each block is filled,
# pruned and filled again fifty times. Or as the arguments say: MIB:BLOCKS, or MIB:xN for N times.
set -e
here="$(cd "$(dirname "$0")" && pwd)"
crate="$here/../../crates/bench_layers"
(cd "$crate" && rt run -- help >/dev/null)
if [ $# -gt 0 ]; then
    exec python3 -B "$here/compare.py" "$crate/out/bench_layers" "$@"
fi
python3 -B "$here/compare.py" "$crate/out/bench_layers" 32:3000 107:10000 256:24000 80:30000 160:30000 320:30000
exec python3 -B "$here/compare.py" "$crate/out/bench_layers" 32:x50 320:x50
