#!/usr/bin/env bash
# `make count`: the instructions of one call of tension_search and of one of the same algorithm in C, and their ratio, on four rows of
# the comparison; no time comes into it. valgrind counts them for the machine at hand. Where that is not x86-64 a plugin of the emulator
# counts those of the archive itself too. It counts an x86-64 instruction that repeats itself once for each time, which would make the
# clearing of a buffer weigh as much as a search, so the C library is told not to fill and copy by such instructions.
set -euo pipefail
cd "$(dirname "$0")/../.."
work=$(mktemp -d)
trap 'rm -rf "$work"' EXIT
. host/compare/build.inc
export GLIBC_TUNABLES=glibc.cpu.x86_rep_stosb_threshold=1073741824:glibc.cpu.x86_rep_movsb_threshold=1073741824

# instructions PROGRAM ARGUMENT..: all that the program executes, by `counter`
instructions() {
  "${counter[@]}" "$@" 2>&1 >/dev/null | sed -n 's/.*Collected : *//p'
}

# a_call WHO KIND M N: three calls less one call are two calls; all else that the program does falls out
a_call() {
  local one three
  one=$(instructions "$work/compare" --count "$@" 1)
  three=$(instructions "$work/compare" --count "$@" 3)
  if [ -z "$one" ] || [ -z "$three" ]; then
    echo "instructions can't be counted by ${counter[0]} on this machine ($(uname -m))" >&2
    exit 1
  fi
  echo $(((three - one) / 2))
}

# count_rows COUNTER..: the table, counted by COUNTER
count_rows() {
  local kind m n ours same
  counter=("$@")
  printf '%-18s %5s %6s %14s %14s %8s\n' trace m n 'ours (instr.)' 'same C' ratio
  for row in "4 65536 random" "128 2048 walk" "1024 2048 random" "4 65536 random, 1 % lost"; do
    read -r m n kind <<<"$row"
    ours=$(a_call ours "$kind" "$m" "$n")
    same=$(a_call same "$kind" "$m" "$n")
    printf '%-18s %5s %6s %14s %14s %8s\n' "$kind" "$m" "$n" "$ours" "$same" "$(python3 -c "print(f'{$ours / $same:.3f}')")"
  done
}

want valgrind=valgrind
echo "code for this machine ($(uname -m)), counted by valgrind"
build_for_here
count_rows valgrind --tool=callgrind --callgrind-out-file=/dev/null

if [ "$native" = no ]; then
  echo
  echo "the archive itself (x86-64), counted by a plugin of the emulator"
  build_for_x86
  # emulators take different versions of the plugins' interface; the calls used are the same in all of them
  for version in 1 2 3 4 5 6; do
    gcc -shared -fPIC -O2 -Wall -Wextra -DVERSION="$version" host/compare/plugin.c -o "$work/plugin.so"
    counter=("${run[@]}" -plugin "$work/plugin.so")
    [ -z "$(instructions "$work/compare" --count ours random 4 64 1)" ] || break
  done
  count_rows "${run[@]}" -plugin "$work/plugin.so"
fi
