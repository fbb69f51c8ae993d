#!/bin/sh
# Runs a program that rt built.
#     sh examples/program.sh crates/dft/out/dft <request
[ -x "$1" ] || { echo "program.sh: no program '$1': sh examples/run.sh builds it" >&2; exit 1; }
exec "$1"
