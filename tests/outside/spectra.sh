#!/bin/sh
# Spectra in fixed point beside FFTW in double precision: how far they lie apart, in units of one sample count. An observation; it fails only
# where a part is further off than e(n) and the rounding of the table can explain.
#     sh tests/outside/spectra.sh [SEED]
cd "$(dirname "$0")/../.." || exit 2
[ "$(uname -m)" = x86_64 ] || { echo "$0: the library is for x86-64" >&2; exit 2; }
. tests/outside/ready.sh
need g++ libfftw3-dev
archive meter
build spectra crates/meter/out/libmeter.a -lfftw3
seed=${1:-1}
echo "seed $seed"
"$room/spectra" "$seed"
