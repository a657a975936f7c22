#!/bin/sh
# Recovers the logs of five workloads of an installed PostgreSQL (15 or 16) by that server and by the program, in turn,
# and compares their processor time and their rows.
# usage: bench/recovery/run.sh [--size MIB] [--rounds N] [--logs FOLDER] [--make] [WORKLOAD ..]
# The workloads: single, batches, copy, mix, images. `--logs` keeps the logs in a folder, or takes those that are there.
set -e
here="$(cd "$(dirname "$0")" && pwd)"
crate="$here/../../crates/standby"
# Without words the program ends with status 2.
(cd "$crate" && rt run >/dev/null 2>&1) || true
exec python3 -B "$here/compare.py" "$crate/out/standby" "$@"
