#!/usr/bin/env bash
# The C entry points: the header in three languages, the examples, the stack, and 31,000 cases against what the reference says of them,
# twice: once with every buffer ending right at memory that can't be touched, once beginning right after it. Some hundred run
# under valgrind too. Uses the archive of what the gate proved.
set -euo pipefail
cd "$(dirname "$0")/.."
work=$(mktemp -d)
trap 'rm -rf "$work"' EXIT

. tests/x86.inc
. tests/archive.inc

# the value of a lost stitch is one that a preprocessor and a compiler take for the lowest sample; a frame of two rows needs no margin
# behind the second, and a patch that is too tall has no place in it
cat >"$work/header.c" <<'END'
#include "tension.h"
#if TENSION_LOST + 2147483647 != -1
#error "a lost stitch is not the lowest sample"
#endif
static const int32_t lost = TENSION_LOST;
int used(void) { return lost < -2147483647 ? TENSION_COUNTS : TENSION_LOST_STITCH; }
typedef char needs[TENSION_FRAME_SAMPLES(2, 3, 5) == 8 ? 1 : -1];
typedef char places[TENSION_FRAME_PLACES(2, 3, 1, 2) == 4 && TENSION_FRAME_PLACES(2, 3, 3, 1) == 0 ? 1 : -1];
END
"${cc[@]}" -std=c89 -pedantic -Wall -Wextra -Wconversion -Werror -Ihost -fsyntax-only "$work/header.c"
"${cc[@]}" -std=c11 -pedantic -Wall -Wextra -Wconversion -Werror -Ihost -fsyntax-only "$work/header.c"
"${cxx[@]}" -x c++ -std=c++11 -pedantic -Wall -Wextra -Wconversion -Werror -Ihost -fsyntax-only "$work/header.c"
echo "host: the header compiles as C89 with stdint.h, C11 and C++"

# one version in the header, the pkg-config file and the newest entry of the changelog
version=$(sed -n 's/^#define TENSION_VERSION_M[AI][JN]OR //p' host/tension.h | paste -s -d .)
for other in "$(sed -n 's/^Version: //p' host/tension.pc.in)" "$(sed -n '/^## /{s/^## //p;q}' CHANGELOG.md)"; do
  if [ "$other" != "$version" ]; then
    echo "host: version $version in host/tension.h, and '$other' in host/tension.pc.in or CHANGELOG.md" >&2
    exit 1
  fi
done
echo "host: version $version"

# the header says that the calls call nothing but these two: a host without a C library brings them itself
others=$("${cc[0]%gcc}nm" -u "$archive" | awk 'NF == 2 && $2 != "memcpy" && $2 != "memset" {print $2}' | sort -u | paste -s -d ' ')
if [ -n "$others" ]; then
  echo "host: the archive asks a host's program for more than memcpy and memset: $others" >&2
  exit 1
fi
echo "host: the archive asks for memcpy and memset alone"

"${cc[@]}" -std=c99 -O2 -Wall -Wextra -Ihost host/example.c "$archive" -o "$work/example"
"${cc[@]}" -std=c99 -O2 -Wall -Wextra -Ihost host/camera.c "$archive" -o "$work/camera"
"${cc[@]}" -std=c99 -O2 -Wall -Wextra -Ihost host/replay.c "$archive" -o "$work/replay"
# static, so that what the loader takes at a first call is not measured with it
"${cc[@]}" -static -std=c11 -O2 -Wall -Wextra -Ihost host/stack.c "$archive" -o "$work/stack"

echo 4 9 6 6 | reference/krec >"$work/pattern"
echo 5 8 6 6 9 7 7 2 4 3 3 | reference/krec >"$work/trace"
"${run[@]}" "$work/example" "$work/pattern" "$work/trace" >"$work/said"
printf 'windows 8 duels 5 survivors 3 sweep 12 found 3\n0\n3\n7\n' | cmp - "$work/said"
# windows that hold a lost stitch, -2147483648, are not listed
echo 1 2 | reference/krec >"$work/rise"
echo 1 2 -2147483648 1 2 | reference/krec >"$work/lost"
"${run[@]}" "$work/example" "$work/rise" "$work/lost" >"$work/said"
printf 'windows 4 duels 0 survivors 2 sweep 2 found 2\n0\n3\n' | cmp - "$work/said"

refused() { # PROGRAM FIRST SECOND LINE: the example tells why it does not search
  if "${run[@]}" "$work/$1" "$2" "$3" >"$work/said" 2>&1; then
    echo "host: the example searches what it should refuse: $4" >&2
    exit 1
  fi
  echo "$4" | cmp - "$work/said"
}
printf 12345 >"$work/five"
refused example "$work/pattern" "$work/five" "$work/five: refusal 8 place 5"
refused example "$work/lost" "$work/trace" "prepare: refusal 21 place 2"
echo "host: the example prints what it should"

# the built-in frame; a frame with two bytes a sample, which read the wrong way round would fall where it rises
"${run[@]}" "$work/camera" >"$work/said"
printf 'places 10 found 3\n0 0\n0 2\n0 4\n' | cmp - "$work/said"
printf 'P5 3 2 65535\n\000\377\001\000\000\377\000\005\000\006\000\007' >"$work/frame.pgm"
printf 'P5\n# a rise\n2 1\n255\n\001\002' >"$work/patch.pgm"
"${run[@]}" "$work/camera" "$work/frame.pgm" "$work/patch.pgm" >"$work/said"
printf 'places 4 found 3\n0 0\n1 0\n1 1\n' | cmp - "$work/said"
# a patch that is larger than the frame has no place to try
"${run[@]}" "$work/camera" "$work/patch.pgm" "$work/frame.pgm" >"$work/said"
echo 'places 0 found 0' | cmp - "$work/said"
{ echo P5 1025 1 255 && head -c 1025 /dev/zero; } >"$work/wide.pgm"
head -c 20 "$work/frame.pgm" >"$work/cut.pgm"
large="refusal 23: a frame has at most 1,024 rows and 1,024 columns, a patch 1,024 samples"
refused camera "$work/wide.pgm" "$work/patch.pgm" "$large"
refused camera "$work/frame.pgm" "$work/wide.pgm" "$large"
refused camera "$work/frame.pgm" "$work/cut.pgm" "$work/cut.pgm: ends before its last sample"
refused camera "$work/trace" "$work/patch.pgm" "$work/trace: not a binary PGM (P5)"
echo "host: the camera's example prints what it should"

# a file of two recordings, as docs/HOST.md has a host write it
cat >"$work/writer.c" <<'END'
#include <stdio.h>
#include "tension.h"
int main(void)
{
    static const int32_t pattern[] = {4, 9, 6, 6}, trace[] = {5, 8, 6, 6, 9, 7, 7, 2, 4, 3, 3};
    uint8_t file[TENSION_RECORDING_BYTES(4) + TENSION_RECORDING_BYTES(11)];
    size_t length = 0;
    uint64_t answer;

    answer = tension_write(file, sizeof file, length, pattern, 4, &length);
    if (!answer)
        answer = tension_write(file, sizeof file, length, trace, 11, &length);
    return answer || fwrite(file, 1, length, stdout) != length;
}
END
"${cc[@]}" -std=c99 -O2 -Wall -Wextra -Ihost "$work/writer.c" "$archive" -o "$work/writer"
"${run[@]}" "$work/writer" >"$work/both"
cat "$work/pattern" "$work/trace" | cmp - "$work/both"
echo "host: two recordings written one behind the other are the file that they should be"

# a search of a frame, as docs/HOST.md has it
cat >"$work/frame.c" <<'END'
#include <stdio.h>
#include "tension.h"
int main(void)
{
    static const uint16_t samples[] = {1, 2, 1, 0, 0, 5, 6, 7}, patch[] = {1, 2};
    uint32_t positions[TENSION_FRAME_PLACES(2, 3, 1, 2)];
    size_t places, found;
    uint64_t answer = tension_frame(samples, 8, 2, 3, 5, patch, 2, 1, 2, positions, 4, &places, &found);
    size_t k;

    printf("%u: %zu places, %zu found:", (unsigned)TENSION_NUMBER(answer), places, found);
    for (k = 0; k < places; k++)
        printf(" %lu", (unsigned long)positions[k]);
    printf("\n");
    return 0;
}
END
"${cc[@]}" -std=c99 -O2 -Wall -Wextra -Ihost "$work/frame.c" "$archive" -o "$work/frame"
"${run[@]}" "$work/frame" >"$work/said"
echo "0: 4 places, 3 found: 0 3 4 4294967295" | cmp - "$work/said"
echo "host: a frame's places are listed as they should be"

"${run[@]}" "$work/stack"

replay() { # KIND COUNT SEED [RUNNER...]
  local kind=$1 count=$2 seed=$3 side
  shift 3
  reference/cases --kind "$kind" --count "$count" --seed "$seed" --input "$work/cases" --expected "$work/expected"
  for side in "" --front; do
    "$@" "$work/replay" ${side:+"$side"} <"$work/cases" >"$work/said"
    cmp "$work/expected" "$work/said"
  done
}
replay prepare 2000 301 "${run[@]}"
replay search 20000 302 "${run[@]}"
replay read 3000 305 "${run[@]}"
replay write 3000 306 "${run[@]}"
replay frame 3000 309 "${run[@]}"
want valgrind=valgrind
if [ "$native" = no ]; then
  # valgrind can't run x86-64 programs here: the same module, compiled for this machine
  . tests/module.inc
  gcc -std=c99 -O2 -Wall -Wextra -Ihost host/replay.c "$module" -o "$work/replay"
fi
replay search 300 303 valgrind --quiet --error-exitcode=9
replay prepare 100 304 valgrind --quiet --error-exitcode=9
replay read 100 307 valgrind --quiet --error-exitcode=9
replay write 100 308 valgrind --quiet --error-exitcode=9
replay frame 300 310 valgrind --quiet --error-exitcode=9
