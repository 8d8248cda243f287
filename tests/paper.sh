#!/usr/bin/env bash
# docs/PAPER.md names only what is there, and the sizes and refusal numbers are the same in the definitions and in the code.
set -u
cd "$(dirname "$0")/.." || exit 2
python3 tools/check-paper
