#!/bin/sh
# Misuses that the compiler refuses before any proof (types and borrows). A must-fail edit has to
# reach the prover, so each of these is applied here to a copy of the crates, and must be refused with
# the error that it names. The check looks at types and borrows before it builds a library, so nothing
# has to be built for this.
# Each file: 'crate:', 'want:' (the error's name), 'file:', 'old:' (standing once), 'new:'.
cd "$(dirname "$0")/.." || exit 2
work=$(mktemp -d) || exit 2
trap 'rm -rf "$work"' EXIT
field() { sed -n "s/^$1: //p" "$2"; }
tried=0
bad=0
for edit in misuse/*.edit; do
    [ -f "$edit" ] || continue
    crate=$(field crate "$edit") want=$(field want "$edit") file=$(field file "$edit")
    if [ -z "$crate" ] || [ -z "$want" ] || [ ! -f "crates/$crate/$file" ]; then
        echo "$edit: names no crate, error or file"
        bad=1
        continue
    fi
    tried=$((tried + 1))
    rm -rf "$work/crates"
    mkdir "$work/crates"
    cp crates.txt "$work/crates.txt"
    for folder in crates/*/; do
        mkdir "$work/$folder"
        for part in src specs proofs; do
            [ ! -d "$folder$part" ] || cp -R "$folder$part" "$work/$folder$part"
        done
    done
    if ! OLD=$(field old "$edit") NEW=$(field new "$edit") awk '
        { text = text $0 "\n" }
        END { old = ENVIRON["OLD"]; at = index(text, old)
              if (old == "" || !at || index(substr(text, at + 1), old)) exit 3
              printf "%s%s%s", substr(text, 1, at - 1), ENVIRON["NEW"], substr(text, at + length(old)) }' \
        "crates/$crate/$file" >"$work/crates/$crate/$file"; then
        echo "$edit: its old text does not stand there once"
        bad=1
        continue
    fi
    log=$(cd "$work/crates/$crate" && rt check 2>&1)
    if [ $? -ne 0 ] && printf '%s\n' "$log" | grep -q "error\[$want\]"; then
        echo "$edit: refused ($want)"
    else
        echo "$edit: NOT REFUSED with $want"
        printf '%s\n' "$log" | head -3
        bad=1
    fi
done
if [ "$tried" -eq 0 ]; then
    echo "misuse: no edit was tried"
    bad=1
fi
exit $bad
