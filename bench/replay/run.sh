#!/bin/sh
# Times `standby scan t` over a log of inserts and HOT updates with all its transactions: of 32 MiB over 3,000 blocks,
# 107 MiB over 10,000, 256 MiB over 24,000 and 320 MiB over 30,000 (or as the arguments MIB:BLOCKS say), beside the
# reader alone over the same log.
set -e
here="$(cd "$(dirname "$0")" && pwd)"
crates="$here/../../crates"
# Without words the program ends with status 2.
(cd "$crates/standby" && rt run >/dev/null 2>&1) || true
(cd "$crates/bench_layers" && rt run -- help >/dev/null)
[ $# -gt 0 ] || set -- 32:3000 107:10000 256:24000 320:30000
exec python3 -B "$here/compare.py" "$crates/standby/out/standby" "$crates/bench_layers/out/bench_layers" "$@"
