#!/bin/sh
# One run of dft at 4,096 points beside one of an empty program, both as rt builds and runs them: smallest and median of 1,000 runs each, in turn.
cd "$(dirname "$0")/../.." || exit 2
. tests/outside/ready.sh
need g++
build start
program dft
mkdir -p "$room/crates/empty/src"
echo 'empty:' >"$room/crates.txt"
printf '#![tactic(auto)]\n\nfn main() {}\n' >"$room/crates/empty/src/main.rt"
told=$(cd "$room/crates/empty" && rt run 2>&1) || { echo "$told"; exit 1; }
sh examples/scan.sh | sh examples/numbers.sh pack >"$room/scan"

case $(sh examples/program.sh crates/dft/out/dft <"$room/scan") in
'0 0 '*) ;;
*) echo 'dft did not answer the scan'; exit 1 ;;
esac

# directly, without the script's own time
told=$("$room/start" 1000 "$room/scan" "$room/crates/empty/out/empty" crates/dft/out/dft) || { echo "$told"; exit 1; }
set -- $told
echo "empty program $1 us, dft at 4,096 points $3 us, $(($3 * 100 / $1)) percent; median $2 us, $4 us, $(($4 * 100 / $2)) percent; on $(uname -m)"
[ $(($3 * 100 / $1)) -le 200 ]
