# To be read with `.` at the repository's root: makes the library's archive, and gives
#     compile PROGRAM SOURCE    a C program with the header and the archive
. examples/kit.sh
archive meter
compile() {
    cc -std=c11 -O2 -Wall -Wextra -Werror -Iinclude -o "$1" "$2" crates/meter/out/libmeter.a
}
