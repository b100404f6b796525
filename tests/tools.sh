#!/usr/bin/env bash
# Runs the tests of the tools. Skipped where python3 is missing.
set -eu
cd "$(dirname "$0")/.."
if ! command -v python3 > /dev/null; then echo "tests/tools.sh: skipped, python3 is missing"; exit 0; fi
python3 -m unittest discover -s tests/tools
