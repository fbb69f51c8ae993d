#!/bin/sh
# The benchmark, on an x86-64 machine: installs the libraries to compare with, builds the calls and the kernels, and prints the tables
# of docs/BENCHMARKS.md. Exit status 1 where a bar is missed.
#     sh benches/run.sh [TURNS]
cd "$(dirname "$0")/.." || exit 2
. tests/outside/ready.sh
need g++ libntl-dev libgmp-dev libfftw3-dev libkissfft-dev
archive meter
archive kernels
g++ -O3 -c -o "$room/others.o" benches/others.cc || exit 1
rustc -O --edition 2021 -L crates/meter/out -L crates/kernels/out -C link-arg="$room/others.o" -C link-args='-lntl -lgmp -lfftw3 -lkissfft-float -lstdc++ -lm' \
    -o "$room/speed" benches/main.rs || exit 1
"$room/speed" "$@"
