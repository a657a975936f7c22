#!/bin/sh
# Times the replay of 1,000,000 small transactions (or as many as the first argument says) and of a tenth as many, beside a
# plain bookkeeping of the same events in a hash set and a vector; then that of 10,000,000 subtransactions (or as many as
# the second argument says) and of a tenth as many under one open snapshot, and apart from it questions to that snapshot,
# with the peak memory of that run.
set -e
cd "$(dirname "$0")/../../crates/bench_layers"
# The program is proved and built once, and both runs are of what was built.
rt run -- help >/dev/null
out/bench_layers transactions "${1:-1000000}"
# The C library hands blocks of up to 32 MiB that were freed out again, and asks the system for any greater one anew, so a
# second round over few subtransactions would find its memory there, and one over many would not. Here none does.
export GLIBC_TUNABLES=glibc.malloc.mmap_threshold=131072
exec /usr/bin/time -f "peak memory %M KiB" out/bench_layers subtransactions "${2:-10000000}"
