#!/bin/sh
# Prints the table of figures by crate: lines as wc counts them, and the number of must-fail edits. A crate whose name
# ends in _tests has tests alone.

cd "$(dirname "$0")/.." || exit 1

# The lines of the files that find gives for these words.
lines() {
    find "$@" -exec cat {} + 2>/dev/null | wc -l | tr -d ' '
}

echo '| crate | code | tests | definitions | proofs | must-fail edits |'
echo '|---|---|---|---|---|---|'
sed 's/#.*//; s/:.*//; /^ *$/d' crates.txt | while read -r name _; do
    crate=crates/$name
    code=$(lines "$crate/src" -name '*.rt' ! -name 'tests.rt' ! -path '*/tests/*')
    tests=$(lines "$crate/src" -name '*.rt' \( -name 'tests.rt' -o -path '*/tests/*' \))
    case $name in
        *_tests) tests=$((code + tests)) code=0 ;;
    esac
    definitions=$(lines "$crate/specs" -name '*.antt')
    proofs=$(lines "$crate/proofs" -name '*.antt')
    edits=$(find "$crate/must-fail" -name '*.edit' 2>/dev/null | wc -l | tr -d ' ')
    echo "| \`$name\` | $code | $tests | $definitions | $proofs | $edits |"
done
