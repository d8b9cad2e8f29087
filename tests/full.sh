#!/usr/bin/env bash
# The programs on a full disk: each ends with status 1 and says why, and replay has read its stream to the end. Uses the programs that
# `rt ci` proved and built last.
set -euo pipefail
cd "$(dirname "$0")/.."
work=$(mktemp -d)
trap 'rm -rf "$work"' EXIT

full() { # NAME INPUT LEFT: how many bytes of the input may be left unread, or "any"
  local program=crates/$1/out/$1 status left
  if [ ! -x "$program" ]; then
    echo "full: $program is not there: run \`rt ci\` first" >&2
    exit 1
  fi
  {
    status=0
    examples/start "$program" >/dev/full 2>"$work/said" || status=$?
    left=$(wc -c)
  } <"$2"
  if [ "$status" -ne 1 ] || ! grep -q StorageFull "$work/said"; then
    echo "full: $1 ends with status $status and says '$(cat "$work/said")'" >&2
    exit 1
  fi
  if [ "$3" != any ] && [ "$left" -ne "$3" ]; then
    echo "full: $1 leaves $left bytes of its input unread" >&2
    exit 1
  fi
}
full bench examples/ribbing.krec any
full examples /dev/null any
full replay crates/replay/stdin 0
echo "full: a full disk is told by status 1, and replay has read its stream"
