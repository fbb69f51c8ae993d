#!/bin/sh
# docs/THEOREMS.md and docs/TRUST.md: each name in a row's second column stands in a file of its third, and each file there has one of the
# names; README.md and docs/: a file that is linked is there.
# docs/CONTRACTS.md: the must-fail edits that it names are those that there are.
cd "$(dirname "$0")/.." || exit 2
made=$(mktemp -d) || exit 2
trap 'rm -rf "$made"' EXIT
trap 'exit 130' INT TERM
ls crates/*/must-fail/*.edit | sed 's,crates/\(.*\)/must-fail/\(.*\)\.edit,\1/\2,' | sort >"$made/there"
sed -n '/^## Wrong programs/,/^## Kernel/ s/^|[^|]*|\([^|]*\)|[^|]*|$/\1/p' docs/CONTRACTS.md | tr '`' '\n' |
    awk '/^[a-z0-9_]+\/[a-z0-9-]+$/ { split($0, part, "/"); print; next } /^[a-z0-9-]+$/ && part[1] { print part[1] "/" $0 }' | sort -u >"$made/named"
diff "$made/named" "$made/there" || { echo "docs/CONTRACTS.md (<) and the edits (>) differ"; exit 1; }
awk -F'|' '
    function fault(words) { print FILENAME ":" FNR ": " words; bad = 1 }
    $4 ~ /`[a-z_]*\/(specs|proofs|src)\// {
        files = split($4, file, "`")
        names = split($3, name, "`")
        split("", met)
        for (f = 2; f <= files; f += 2) {
            of_file = 0
            lines = 0
            while ((getline text < ("crates/" file[f])) > 0) {
                lines++
                words = split(text, word, /[^A-Za-z0-9_'"'"'-]+/)
                for (w = 1; w <= words; w++)
                    for (n = 2; n <= names; n += 2)
                        if (word[w] == name[n]) met[n] = of_file = 1
            }
            close("crates/" file[f])
            if (!lines) fault("there is no file " file[f])
            else if (!of_file) fault("nothing that it names stands in " file[f])
        }
        for (n = 2; n <= names; n += 2) {
            checked++
            if (!met[n]) fault(name[n] " does not stand there")
        }
    }
    END {
        if (bad || !checked) exit 1
        print checked " names stand where docs/THEOREMS.md and docs/TRUST.md say"
    }' docs/THEOREMS.md docs/TRUST.md || exit 1
for page in README.md docs/*.md; do
    grep -o '](\([^)#:]*\)[)#]' "$page" | sed 's/^](//; s/[)#]$//' | while read -r link; do
        [ -z "$link" ] || [ -e "$(dirname "$page")/$link" ] || { echo "$page: there is no $link"; exit 1; }
    done || exit 1
done
