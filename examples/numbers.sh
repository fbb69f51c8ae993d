#!/bin/sh
# Decimal numbers to dft's input and back. Numbers stand on standard input, with spaces or newlines between them:
#     echo 5 1 4  1 2  1 2 3 4 | sh examples/numbers.sh pack | sh examples/program.sh crates/dft/out/dft
#     sh examples/numbers.sh unpack <file
# dft's input is m, schedule, N, the table's N/2 entries and the N samples, each in groups of seven bits.
set -f

refuse() {
    echo "numbers.sh: '$1' is not a decimal number below 2^32" >&2
    exit 1
}

byte() {
    printf "\\$(($1 / 64))$(($1 / 8 % 8))$(($1 % 8))"
}

pack() {
    while read -r line || [ -n "$line" ]; do
        for word in $line; do
            case $word in
            *[!0-9]*) refuse "$word" ;;
            esac
            number=$word
            while [ "${number#0}" != "$number" ] && [ "$number" != 0 ]; do number=${number#0}; done
            [ "${#number}" -le 10 ] && [ "$number" -le 4294967295 ] || refuse "$word"
            while [ "$number" -ge 128 ]; do
                byte $((number % 128 + 128))
                number=$((number / 128))
            done
            byte "$number"
        done
    done
}

unpack() {
    value=0 unit=1 space=''
    for byte in $(od -An -v -tu1); do
        value=$((value + byte % 128 * unit))
        unit=$((unit * 128))
        if [ "$byte" -lt 128 ]; then
            printf '%s%s' "$space" "$value"
            value=0 unit=1 space=' '
        fi
    done
    echo
    [ "$unit" -eq 1 ] || { echo 'numbers.sh: the last number is cut' >&2; exit 1; }
}

case $1 in
pack) pack ;;
unpack) unpack ;;
*) echo 'numbers.sh pack | unpack' >&2; exit 2 ;;
esac
