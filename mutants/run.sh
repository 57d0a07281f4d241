#!/usr/bin/env bash
# Tries the mutants of this folder against the prover, and prints a Markdown row for each. docs/MUTANTS.md has the last table.
# usage: mutants/run.sh [CRATE...]
# A wrong program, mutants/CRATE/NAME.edit, must be refused. One that does the same, mutants/equivalent/CRATE/NAME.edit, must be
# proved. The edits have the form of must-fail edits (rt doc); their second line has the kind.
# With mutants/by_place/CRATE/NAME.edit CRATE must still be proved, and its caller by_place refused (docs/MUTANTS.md).
# All is done on a copy outside the repository: the gate refuses a source file that is no crate's, and the crates' own must-fail edits
# are left alone. `rt must-fail` begins with what `rt check` kept of the same crates, and remembers what it tried.
set -euo pipefail
root=$(cd "$(dirname "$0")/.." && pwd)
cd "$root/mutants"

# The crates asked for, else all that have mutants. by_place: the edits of the crates that it calls.
if [ $# -eq 0 ]; then
    mapfile -t all < <(find . -name '*.edit' | sed 's|^\./||; s|^equivalent/||; s|/.*||' | sort -u)
    set -- "${all[@]}"
fi
for crate in "$@"; do
    [ -d "$crate" ] || [ -d "equivalent/$crate" ] || { echo "mutants: none of $crate" >&2; exit 2; }
done

copy=$(mktemp -d)
trap 'rm -rf "$copy"' EXIT
tar -C "$root" --exclude='crates/*/out' --exclude='crates/*/must-fail' -cf - crates crates.txt | tar -C "$copy" -xf -

# Each crate's mutants in place of its must-fail edits; those that do the same are marked by their name.
edits=0
for crate in "$@"; do
    to=$copy/crates/$crate/must-fail
    mkdir "$to"
    for edit in "$crate"/*.edit "equivalent/$crate"/*.edit; do
        [ -f "$edit" ] || continue
        case $edit in equivalent/*) mark=equivalent- ;; *) mark= ;; esac
        cp "$edit" "$to/$mark$(basename "$edit")"
        edits=$((edits + 1))
    done
done

# A row of the table: CRATE NAME FILE OUTCOME PLACE
row() {
    local does kind
    does=$(sed -n '1s/^# //p' "$3" | sed 's/\. .*/./')
    kind=$(sed -n 's/^# kind: //p' "$3")
    echo "| $1 | $2 | $does | $kind | $4 | $5 |"
}

echo '| crate | mutant | what it does | kind | outcome | first error |'
echo '|---|---|---|---|---|---|'
refused=0 equivalent=0
while IFS= read -r line; do
    # rt: must-fail CRATE/NAME.edit: refused, as it must be: FILE:LINE:COLUMN: ..
    # An equivalent mutant is NOT REFUSED, which rt counts as a failure; the last line here counts it right.
    [[ $line =~ ^rt:\ must-fail\ ([^/]+)/([^:]+)\.edit:\ (.*) ]] || { echo "$line" >&2; continue; }
    crate=${BASH_REMATCH[1]} label=${BASH_REMATCH[2]} answer=${BASH_REMATCH[3]}
    name=${label#equivalent-} place=
    if [[ $answer =~ (src|specs|proofs)/[^:]*:[0-9]+:[0-9]+ ]]; then place=${BASH_REMATCH[0]}; fi
    case $label:$answer in
    equivalent-*:'NOT REFUSED'*) outcome=equivalent equivalent=$((equivalent + 1)) ;;
    equivalent-*) outcome="UNEXPECTED: $answer" ;;
    # (rt says so where a proof names what the edit took away, and where the prover met a limit: neither tells of the contract)
    *:'refused, as it must be (only '*) outcome='refused, not by a fact' refused=$((refused + 1)) ;;
    *:refused*) outcome=refused refused=$((refused + 1)) ;;
    *) outcome="UNEXPECTED: $answer" ;;
    esac
    row "$crate" "$name" "$copy/crates/$crate/must-fail/$label.edit" "$outcome" "$place"
done < <(cd "$copy" && { rt must-fail "$@" 2>&1 || true; })

# Those that only a caller refuses, one after the other. dev.py puts an edit into a text.
for edit in by_place/*/*.edit; do
    [[ " $* " == *' by_place '* && -f $edit ]] || continue
    edits=$((edits + 1))
    crate=$(basename "$(dirname "$edit")") place=
    source=$copy/crates/$crate/src/lib.rt
    python3 -B - "$root" "$edit" "$source" <<'END'
import sys

root, edit, path = sys.argv[1:]
sys.path.insert(0, root)
import dev

texts = {"src/lib.rt": dev.read(path)}
dev.edited(edit, texts)
with open(path, "w", encoding="utf-8") as file:
    file.write(texts["src/lib.rt"])
END
    if ! said=$(cd "$copy/crates/$crate" && rt check 2>&1); then
        outcome="UNEXPECTED: $crate is not proved"
    elif said=$(cd "$copy/crates/by_place" && rt check 2>&1); then
        outcome="UNEXPECTED: by_place is proved"
    elif [[ $said =~ fn\ (by_place::[^:]+):\ (not\ proved|no\ proof) ]]; then
        outcome="refused in ${BASH_REMATCH[1]}" refused=$((refused + 1))
    else
        outcome='UNEXPECTED: by_place gets no verdict'
    fi
    if [[ $said =~ (src|specs|proofs)/[^:]*:[0-9]+:[0-9]+ ]]; then place=${BASH_REMATCH[0]}; fi
    row "$crate" "$(basename "$edit" .edit)" "$edit" "$outcome" "$place"
    cp "$root/crates/$crate/src/lib.rt" "$source"
done

unexpected=$((edits - refused - equivalent))
echo
echo "$refused refused, $equivalent equivalent, $unexpected unexpected"
[ "$edits" -gt 0 ] && [ "$unexpected" -eq 0 ]
