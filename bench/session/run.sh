#!/bin/sh
# Times the replay of a log of inserts and HOT updates by `standby session`, while 0, 1, 8 and 64 scans are open that were
# opened when the table had 10,000 blocks (or all of its blocks, where it has fewer), each of which reads one page after
# every 1,000 records: of 256 MiB over 24,000 blocks, or as the argument MIB:BLOCKS says.
set -e
here="$(cd "$(dirname "$0")" && pwd)"
crates="$here/../../crates"
# Without words the program ends with status 2.
(cd "$crates/standby" && rt run >/dev/null 2>&1) || true
exec python3 -B "$here/compare.py" "$crates/standby/out/standby" "${1:-256:24000}"
