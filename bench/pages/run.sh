#!/bin/sh
# Times 200,000 checks of the page rule (or as many as the first argument says) over each of six pages.
set -e
cd "$(dirname "$0")/../../crates/bench_layers"
exec rt run -- pages "${1:-200000}"
