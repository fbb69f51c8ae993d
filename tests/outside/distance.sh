#!/bin/sh
# The transform in fixed point beside the same steps without rounding, in GMP's and in Python's whole numbers: never further than e(n).
# An EFFORT of 2, as it is when none is given, takes about two minutes.
#     sh tests/outside/distance.sh [SEED [EFFORT]]
cd "$(dirname "$0")/../.." || exit 2
[ "$(uname -m)" = x86_64 ] || { echo "$0: the library is for x86-64" >&2; exit 2; }
. tests/outside/ready.sh
need g++ libgmp-dev python3
archive meter
build distance crates/meter/out/libmeter.a -lgmpxx -lgmp
seed=${1:-1} effort=${2:-2}
echo "seed $seed, effort $effort"
"$room/distance" "$seed" "$effort" "$room/made" || exit 1
python3 tests/outside/distance.py <"$room/made"
