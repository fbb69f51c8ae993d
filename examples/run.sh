#!/bin/sh
# Builds dft, runs it on document 01's example and on a scan of 4,096 points.
cd "$(dirname "$0")/.." || exit 2
echo 'proving and building dft; the first time this takes some minutes'
. examples/kit.sh
program dft
dft() {
    sh examples/numbers.sh pack | sh examples/program.sh crates/dft/out/dft
}
echo 'modulo 5, schedule 1, table 1 2, samples 1 2 3 4:'
echo 5 1 4 1 2 1 2 3 4 | dft
echo 'a scan of 4,096 points (number, place, and the first of the 4,096 results):'
sh examples/scan.sh | dft | cut -d ' ' -f 1-8
