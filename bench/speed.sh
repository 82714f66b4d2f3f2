#!/usr/bin/env bash
# Measures the proved library against the plain one and against strict two-phase locking, all in one run.
# The lines go to bench/speed.txt too, and bench/plot.py draws the steps of them.
set -euo pipefail
cd "$(dirname "$0")"
./build.sh
harness/target/release/harness speed | tee speed.txt
python3 plot.py speed.txt steps.svg
