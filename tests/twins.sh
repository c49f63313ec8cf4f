#!/usr/bin/env bash
# Tries twins: twins.sh [CRATE..]. An edit of crates/CRATE/must-fail shows something only where the prover
# takes a change of the same place that means what stood there. Such a change stands beside it in must-pass/,
# under the same name and in the same form. It is tried on a copy, over what earlier checks kept.
# `twins.sh --names` only compares the names of both folders.
set -eu
cd "$(dirname "$0")/.."

names() {
    local crate=$1
    diff <(ls "crates/$crate/must-fail" 2>/dev/null) <(ls "crates/$crate/must-pass" 2>/dev/null) ||
        { echo "twins: $crate: an edit has no twin, or a twin no edit" && false; }
}

# Makes the change that a file of must-pass/ tells, in the crate of the copy.
change() {
    python3 -B - "$1" "$2" <<'PYTHON'
import sys

twin, crate = sys.argv[1:]
with open(twin, encoding="utf-8") as file:
    lines = [it.rstrip("\n").split(": ", 1) for it in file]
path = old = None
for word, text in (it for it in lines if len(it) == 2):
    if word == "file":
        path = f"{crate}/{text}"
    elif word == "old":
        old = text
    elif word == "new":
        with open(path, encoding="utf-8") as file:
            code = file.read()
        if code.count(old) != 1:
            sys.exit(f"{twin}: the text stands {code.count(old)} times: {old}")
        with open(path, "w", encoding="utf-8") as file:
            file.write(code.replace(old, text))
PYTHON
}

# Whether the crate of the copy is proved.
proved() {
    (cd "$copy/crates/$1" && rt check --jobs 1) >"$copy/log" 2>&1 && grep -q 'logic=proved' "$copy/log"
}

try() {
    local crate=$1 twin name start
    proved "$crate" || { tail -n 5 "$copy/log" && echo "twins: $crate: not proved as it stands" && return 1; }
    for twin in "crates/$crate/must-pass/"*.edit; do
        name=$(basename "$twin" .edit)
        start=$SECONDS
        if change "$twin" "$copy/crates/$crate" && proved "$crate"; then
            echo "$crate $name: taken ($((SECONDS - start)) s)"
        else
            echo "$crate $name: refused ($((SECONDS - start)) s)"
            grep -m 3 -E 'no proof|error|did not prove' "$copy/log" || true
            refused=$((refused + 1))
        fi
        rm -rf "$copy/crates/$crate/src"
        cp -a "crates/$crate/src" "$copy/crates/$crate/src"
    done
}

refused=0
crates=()
for crate in "$@"; do [[ $crate == --names ]] || crates+=("$crate"); done
if ((${#crates[@]} == 0)); then
    for folder in crates/*/must-fail; do crates+=("$(basename "$(dirname "$folder")")"); done
fi
for crate in "${crates[@]}"; do names "$crate"; done
[[ ${1:-} == --names ]] && exit 0
copy=$(mktemp -d)
trap 'rm -rf "$copy"' EXIT
mkdir "$copy/crates"
cp -a crates.txt HANDLES "$copy"
for crate in crates/*; do
    mkdir "$copy/$crate"
    find "$crate" -mindepth 1 -maxdepth 1 ! -name out -exec cp -a -t "$copy/$crate" {} +
done
for crate in "${crates[@]}"; do try "$crate"; done
echo "twins: $refused refused"
exit $((refused > 0))
