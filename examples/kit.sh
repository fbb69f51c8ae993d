# To be read with `.` at the repository's root: makes what rt builds, for x86-64.
#     archive NAME    crates/NAME/out/libNAME.a, as the crates are now
#     program NAME    crates/NAME/out/NAME, as the crates are now
[ "$(uname -m)" = x86_64 ] || { echo 'the library and the program are for x86-64' >&2; exit 2; }

archive() {
    echo "proving $1 and writing its archive; from nothing this takes a few minutes" >&2
    told=$(cd "crates/$1" && rt lib 2>&1) || { echo "$told" >&2; exit 1; }
}

program() {
    told=$(cd "crates/$1" && rt run <stdin 2>&1) || { echo "$told" >&2; exit 1; }
}
