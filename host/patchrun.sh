#!/bin/sh
# Runs the proved program patchrun on its standard input.
set -eu
program=${0%/*}/../crates/patchrun/out/patchrun
[ -x "$program" ] || { echo "patchrun is not built yet: make program" >&2; exit 1; }
exec "$program"
