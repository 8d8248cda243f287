#!/usr/bin/env bash
# Every public function of a library stands in docs/PROMISES.md with two wrong answers that were tried, and every such edit is in the tree.
set -u
cd "$(dirname "$0")/.." || exit 2
python3 tools/check-promises
