#!/usr/bin/env bash
# Runs the checks of real traffic. Skipped where the captures or python3 are missing. CAPTURES names their folder.
set -eu
cd "$(dirname "$0")/.."
captures=${CAPTURES:-../shared/captures}
if [ ! -d "$captures" ]; then echo "tests/captures.sh: skipped, no captures in $captures"; exit 0; fi
if ! command -v python3 > /dev/null; then echo "tests/captures.sh: skipped, python3 is missing"; exit 0; fi
tests/captures/inline_lists.sh
tests/captures/submessages.sh
tests/captures/fragments.sh
tests/captures/show.sh
tests/captures/list.sh
tests/captures/learn.sh
