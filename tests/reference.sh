#!/usr/bin/env bash
# The reference program's own tests.
set -euo pipefail
cd "$(dirname "$0")/../reference"
python3 -m unittest discover -s tests -t .
