#!/usr/bin/env bash
# The cases that crates/replay was run on are those that the reference makes, and so is what they must come to.
set -euo pipefail
cd "$(dirname "$0")/.."
reference/record --check
