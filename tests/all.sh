#!/bin/sh
# The quick tests: tests/all.sh [PROGRAM]. They compare the program with its documents, with second
# implementations and with its packages. Without PROGRAM it is the program that ./recw runs: that of
# release/ if the sources are those of this tree. Nothing is installed or proved otherwise; what is missing
# for a part of a test is named. The tests run side by side, one for each processor, and the output of each
# is printed when it ends. The last line counts them. .ci/run has more tests.
set -u

tests=$(dirname -- "$(readlink -f -- "$0")")
top=$(dirname -- "$tests")
PROGRAM=$(readlink -f -- "${1:-$("$top/recw" --which)}")
[ -x "$PROGRAM" ] || exit 1
export PROGRAM
room=$(mktemp -d)
trap 'rm -rf -- "$room"' EXIT

# A test in each line; those that take longest come first.
cat >"$room/list" <<'END'
tools.py "$PROGRAM"
package.py
traces.py "$PROGRAM"
clib.py released
profiles.py "$PROGRAM"
examples.py "$PROGRAM"
start.sh
hostile.py "$PROGRAM" texts conversations checks
stuck.py "$PROGRAM"
uses.py "$PROGRAM"
join.py "$PROGRAM"
tables.py "$PROGRAM"
dot.py "$PROGRAM"
editors.py "$PROGRAM"
mistakes.py "$PROGRAM"
help.py "$PROGRAM"
web.py "$PROGRAM" heap colours scripts
meaning.py
growths.py
arguments.py
links.py
prose.py
options.py
shellcheck -x -P .. ../recw ../tools/prove ../tools/sources.sh *.sh ../completions/recw.bash
END

# Runs the test in a line of the list.
cat >"$room/run" <<'END'
cd -- "$1" || exit 1
line=$(sed -n "$3p" "$2/list")
name=${line%% *}
began=$(date +%s)
if [ -x "$name" ]; then
    line=./$line
elif ! command -v "$name" >/dev/null; then
    line="echo 'not tried: $name is not here'"
fi
status=passed
eval "$line" >"$2/$3.out" 2>&1 </dev/null || status=FAILED
echo "$status" >"$2/$3.status"
printf '%s\n[%s] %s, %d s\n' "$(cat -- "$2/$3.out")" "$name" "$status" $(($(date +%s) - began))
END

seq "$(wc -l <"$room/list")" | xargs -P "$(nproc)" -n 1 sh "$room/run" "$tests" "$room"
passed=$(cat -- "$room"/*.status | grep -c passed)
failed=$(($(wc -l <"$room/list") - passed))
echo "$passed passed, $failed failed"
[ "$failed" -eq 0 ]
