#!/usr/bin/env bash
# `make compare`: all rows, a table of traces, which is drawn in host/compare/out/compare.svg too, and one of frames.
set -euo pipefail
cd "$(dirname "$0")/../.."
work=$(mktemp -d)
trap 'rm -rf "$work"' EXIT
. host/compare/build.inc
build_for_here
note=()
if [ "$native" = no ]; then
  note=(--note "Timed as code for $(uname -m), made of the same module as the archive, which is x86-64 code.")
fi
mkdir -p host/compare/out
"$work/compare" --svg host/compare/out/compare.svg "${note[@]}"
echo "drawn in host/compare/out/compare.svg"
