#!/bin/sh
# Makes the picture docs/story.svg: one scan through the right table, and what the beginning of a longer one would have made of it.
cd "$(dirname "$0")/.." || exit 2
. examples/kit.sh
archive meter
mkdir -p target
cc -std=c11 -O2 -o target/story examples/story.c crates/meter/out/libmeter.a -lm || exit 1
target/story >target/story.svg && mv target/story.svg docs/story.svg && echo docs/story.svg
