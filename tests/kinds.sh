#!/usr/bin/env bash
# Shows that a window, an offset and a place can't stand for each other in the library's own functions. `Offset::between`, `agree`
# and `test_place` are handed each of the three, the neighbour that a failed test tells, which is a place, and a plain number: each
# wrong one must fail to compile with the mismatch told, and the right ones must be proved. (A must-fail edit can't show this: it
# would never reach the prover.) The compiler tells every mismatch of a crate at once, so two runs do.
set -euo pipefail
cd "$(dirname "$0")/.."
work=$(mktemp -d)
trap 'rm -rf "$work"' EXIT
mkdir -p "$work/crates/probe/src"

# The crates come with what out/ has of them: rt compares the stamps, and proves again only what is new since then.
for crate in order stitches sizes agreement; do
  grep "^$crate:" crates.txt >>"$work/crates.txt"
  cp -R "crates/$crate" "$work/crates/"
done
echo "probe: order agreement" >>"$work/crates.txt"

# probe CALL..: makes a crate with a function for each call, the first on line 1, and has it checked
probe() {
  local call n=0
  for call in "$@"; do
    n=$((n + 1))
    echo "pub fn use_$n(window: Window, offset: Offset, place: Place, tested: Tested, number: usize, entries: &[u16], samples: &[i32])" \
      "{ let Tested::Failed(_, neighbour) = tested else { return; }; let _ = $call; }"
  done >"$work/crates/probe/src/lib.rt"
  printf 'use %s;\n' agreement::agree order::{Offset,Place,Tested,Window,test_place} >>"$work/crates/probe/src/lib.rt"
  (cd "$work/crates/probe" && rt check 2>&1)
}

# each parameter that has a kind: the kind, and a call with %s in its place
parameters=(
  'Window Offset::between(%s, window)'
  'Window Offset::between(window, %s)'
  'Window agree(1, entries, entries, %s, window)'
  'Window agree(1, entries, entries, window, %s)'
  'Place test_place(0, 0, samples, %s)'
)
declare -A kind=([window]=Window [offset]=Offset [place]=Place [neighbour]=Place [number]=usize)
wrong=() right=() wanted=()
for parameter in "${parameters[@]}"; do
  for argument in window offset place neighbour number; do
    printf -v call "${parameter#* }" "$argument"
    if [ "${parameter%% *}" = "${kind[$argument]}" ]; then
      right+=("$call")
    else
      wrong+=("$call")
      wanted+=("use_${#wrong[@]}, $call: error[mismatched-types]: expected \`${parameter%% *}\`, found \`${kind[$argument]}\`")
    fi
  done
done

said=$(probe "${wrong[@]}" || true)
told=$(sed -n 's,^src/lib\.rt:\([0-9]*\):[0-9]*: \(error.*\)$,\1 \2,p' <<<"$said" | sort -n |
  while read -r line error; do echo "use_$line, ${wrong[line - 1]-}: $error"; done)
if ! diff <(printf '%s\n' "${wanted[@]}") <(echo "$told"); then
  echo "the compiler was to tell the mix-ups marked < and told those marked >; its last lines:"
  tail -n 5 <<<"$said"
  exit 1
fi

mapfile -t right < <(printf '%s\n' "${right[@]}" | sort -u)
said=$(probe "${right[@]}" || true)
if ! grep -q '^logic=proved' <<<"$said" || [ "$(grep -c '^fn probe::use_[0-9]*: proved$' <<<"$said")" -ne "${#right[@]}" ]; then
  echo "a right use is not proved:"
  printf '%s\n' "${right[@]}" | cat -n
  grep -v '^rt: ' <<<"$said" | head -n 10
  exit 1
fi
echo "kinds: ${#wrong[@]} mix-ups refused by the compiler, ${#right[@]} right uses proved"
