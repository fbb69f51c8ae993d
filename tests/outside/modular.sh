#!/bin/sh
# The calls over residues beside FLINT and PARI, which know nothing of them: sums, inverse and acceptance, for moduli of every kind.
#     sh tests/outside/modular.sh [SEED]
cd "$(dirname "$0")/../.." || exit 2
. tests/outside/ready.sh
need g++ libflint-dev pari-gp
archive meter
build modular crates/meter/out/libmeter.a -lflint
seed=${1:-1}
echo "seed $seed"
pari() { # FILE DEFINITION
    { echo "$2"; cat "tests/outside/$1"; } >"$room/$1"
    gp -q -f -s 64M --default parisizemax=1G "$room/$1" </dev/null
}
pari moduli.gp "SEED = $seed;" >"$room/cases" || exit 2
[ "$(tail -n 1 "$room/cases" | cut -d ' ' -f 1)" = 12 ] || { cat "$room/cases"; exit 2; }
"$room/modular" "$seed" "$room/made" <"$room/cases" || exit 1
told=$(pari modular.gp "NAME = \"$room/made\";" 2>&1)
echo "$told"
case $told in
'PARI '*'; 0 differences') ;;
*) exit 1 ;; # gp ends with status 0 after an error of its own, too
esac
