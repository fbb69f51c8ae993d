#!/bin/sh
# The examples: what run.sh prints of document 01's input and of the scan, numbers that go to bytes and back, and words that are refused.
cd "$(dirname "$0")/.." || exit 2
told=$(sh examples/run.sh) || exit 1
case $told in
*'
0 0 0 3 4 2
'*'
0 0 67391118 14 46 46 647420596 350827081') ;;
*) echo "examples/run.sh printed: $told"; exit 1 ;;
esac
numbers='0 1 127 128 16383 16384 4294967295'
back=$(echo "$numbers" 008 | sh examples/numbers.sh pack | sh examples/numbers.sh unpack)
[ "$back" = "$numbers 8" ] || { echo "numbers.sh gave back: $back"; exit 1; }
if printf '\200' | sh examples/numbers.sh unpack >/dev/null 2>&1; then
    echo 'numbers.sh took a number that is cut'
    exit 1
fi
for word in 4294967296 99999999999 x -1 1.5; do
    if echo "$word" | sh examples/numbers.sh pack >/dev/null 2>&1; then
        echo "numbers.sh took '$word'"
        exit 1
    fi
done
