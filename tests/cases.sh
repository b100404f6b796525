#!/usr/bin/env bash
# Runs the program on the cases of its stage for the commands that it has, which must all pass: inputs, and what
# it must print, say and end with. Skipped where the cases or python3 are missing. CASES names their folder.
#
#     cases.sh [PROGRAM]
set -eu
cd "$(dirname "$0")/.."
built=18 # up to which of the stages that the cases know these commands are built
cases=${CASES:-../shared/cases}
if [ ! -f "$cases/run_cases.py" ]; then echo "tests/cases.sh: skipped, no cases in $cases"; exit 0; fi
if ! command -v python3 > /dev/null; then echo "tests/cases.sh: skipped, python3 is missing"; exit 0; fi
program=${1:-$(tests/program.sh)}
python3 "$cases/run_cases.py" "$program" --stage "$built" --commands list,show,words,rerun,check,learn
