#!/usr/bin/env bash
# Compares the proved library with the plain one on random files, lists of calls and inputs of yard. Status 1 if they differ anywhere.
# Arguments: how many files, how many lists of calls, how many inputs.
set -euo pipefail
cd "$(dirname "$0")"
./build.sh
exec harness/target/release/harness agree "$@"
