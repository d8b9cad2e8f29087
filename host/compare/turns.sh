#!/usr/bin/env bash
# `make turns OLD=REVISION`: what has become slower or faster since an earlier commit, row by row (turns.c says how). The earlier
# archive is proved and built in a clone, once, by the same kit; its object file stays in host/compare/out/turns.
set -euo pipefail
cd "$(dirname "$0")/../.."
if ! commit=$(git rev-parse --verify --quiet "${1:-}^{commit}"); then
  echo "usage: make turns OLD=REVISION (an earlier commit of this repository, not '${1:-}')" >&2
  exit 2
fi
work=$(mktemp -d)
trap 'rm -rf "$work"' EXIT
echo "making the archive of this tree, if it is not there yet (some minutes) .."
. host/compare/build.inc
object_for_here "$work/new.o"
old=host/compare/out/turns/$commit-$(uname -m).o
if [ ! -e "$old" ]; then
  echo "making the archive of $commit in a clone (some minutes) .."
  git clone --quiet . "$work/clone"
  git -C "$work/clone" checkout --quiet "$commit"
  (cd "$work/clone" && . tests/archive.inc && object_for_here "$work/old.o")
  mkdir -p host/compare/out/turns
  mv "$work/old.o" "$old"
fi
build_turns "$old" "$work/new.o"
echo "taking turns .."
"$work/turns"
