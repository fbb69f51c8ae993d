# What the scripts here share; read with '.' in the repository's root. Makes $room, a folder that is removed at the end.
. examples/kit.sh
room=$(mktemp -d) || exit 2
trap 'rm -rf "$room"' EXIT
trap 'exit 130' INT TERM

need() { # PACKAGE..: installs the Debian packages that are missing
    dpkg -s "$@" >"$room/packages" 2>&1 && return
    echo "installing $*" >&2
    { apt-get update -qq && apt-get install -y -qq --no-install-recommends "$@"; } >"$room/packages" 2>&1 || { cat "$room/packages" >&2; exit 2; }
}

build() { # NAME WORD..: tests/outside/NAME.cpp to $room/NAME
    name=$1
    shift
    g++ -std=c++17 -O2 -Wall -Wextra -o "$room/$name" "tests/outside/$name.cpp" "$@" || exit 2
}
