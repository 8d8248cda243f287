#!/usr/bin/env bash
# What the try_ programs replay is what oracle/lists say, so that no expected answer comes from our own code.
set -u
cd "$(dirname "$0")/.." || exit 2
python3 oracle/make_tries.py --check
