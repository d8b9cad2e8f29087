#!/usr/bin/env bash
# Builds the comparison of host/compare and runs one short row of each kind of trace, with lost stitches and without, and of each kind of
# frame: the answers of all matchers are checked and the picture is drawn; times are not looked at. The rows of traces once more, the
# archive in turns with itself.
set -euo pipefail
cd "$(dirname "$0")/.."
work=$(mktemp -d)
trap 'rm -rf "$work"' EXIT
. host/compare/build.inc

short_rows() { # [RUNNER...]
  "$@" "$work/compare" --short --svg "$work/drawn.svg" >"$work/said"
  grep -q '^9 rows,' "$work/said"
  grep -q '^6 rows of frames,' "$work/said"
  python3 -c 'import sys, xml.dom.minidom; xml.dom.minidom.parse(sys.argv[1])' "$work/drawn.svg"
}
build_for_x86
short_rows "${run[@]}"
if [ "$native" = no ]; then
  build_for_here
  short_rows
fi
object_for_here "$work/object.o"
build_turns "$work/object.o" "$work/object.o"
"$work/turns" --short >"$work/said"
grep -q '^9 rows,' "$work/said"
echo "compare: the same answers from four matchers on traces and two on frames, and from the archive at four places"
