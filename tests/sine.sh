#!/bin/sh
# The sine table holds the whole numbers nearest to 16,384 times cosine and sine.
cd "$(dirname "$0")/.." || exit 2
exec python3 tests/sine/compare.py
