#!/bin/sh
# The library as a user links it. The header stands alone, in C and in C++, and the picture's program compiles; the header's examples, each as
# it is written there, README's program and document 01's bench values hold; every call, and `dft`, answers and leaves what a plain second
# reading of document 01 says, on fresh inputs (SEED=.. repeats a run).
cd "$(dirname "$0")/.." || exit 2
made=$(mktemp -d) || exit 2
trap 'rm -rf "$made"' EXIT
trap 'exit 130' INT TERM
. tests/meter/build.sh

# README: the library needs C's memset and nothing else from outside
needed=$(nm -u crates/meter/out/libmeter.a | sed -n 's/^ *U //p' | sort -u | tr '\n' ' ')
[ "$needed" = 'memset ' ] || { echo "crates/meter/out/libmeter.a needs from outside: $needed"; exit 1; }

if command -v g++ >/dev/null; then
    g++ -Wall -Wextra -Werror -fsyntax-only -x c++ include/fandrute.h || exit 1
else
    echo 'there is no g++: the header is not tried in C++'
fi
cc -std=c11 -Wall -Wextra -Werror -fsyntax-only examples/story.c || exit 1
sed -n '/^#ifndef/,$ s/^ \*     \([^/]*;\).*/\1/p' include/fandrute.h >"$made/examples"
calls=$(grep -c '^fdr_[a-z]* *fdr_[a-z_]*(' include/fandrute.h)
used=$(grep -o 'fdr_[a-z]*_[a-z]*(' "$made/examples" | sort -u | grep -c .)
[ "$calls" -eq "$used" ] || { echo "include/fandrute.h has $calls calls and examples of $used"; exit 1; }
while read -r line; do
    grep -qF "$line" tests/meter/values.c || { echo "tests/meter/values.c lacks the header's example: $line"; exit 1; }
done <"$made/examples"
sed -n '/^    #include "fandrute.h"/,/^    }$/ s/^    //p' README.md >"$made/readme.c"
compile "$made/readme" "$made/readme.c" && "$made/readme" || { echo "README.md's program failed"; exit 1; }
compile "$made/values" tests/meter/values.c || exit 1
"$made/values" || exit 1

compile "$made/calls" tests/meter/calls.c || exit 1
program dft
rustc -O --edition 2021 -o "$made/reading" tests/reading/main.rs || exit 1
"$made/reading" check || exit 1
"$made/reading" calls "$made/calls" || exit 1
"$made/reading" requests "$made" crates/dft/out/dft
