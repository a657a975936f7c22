#!/bin/sh
# Times encode, the CRC-32C (record by record, and over one piece of 1 MiB again and again), decode and a copy over
# 256 MiB of records (or as many as the first argument says).
set -e
cd "$(dirname "$0")/../../crates/bench_layers"
exec rt run -- records "${1:-256}"
