#!/bin/sh
# Tests the scripts ./recw and tools/prove on small trees with stand-ins for rt, the prover and the
# program, so that nothing is proved: their messages, when they build or unpack, and how they end. Takes
# about 20 seconds.
set -eu

top=$(dirname -- "$(dirname -- "$(readlink -f -- "$0")")")
room=$(mktemp -d)
export XDG_CACHE_HOME="$room/cache"
trap 'rm -rf -- "$room"' EXIT
chmod 755 "$room"
failures=0

# The stand-ins write what they are run for to the file `runs`, wait as long as the file `slow` says,
# or for a crate `slow.CRATE`, and end as the file `status` says.
make_tree() {
    tree=$room/$1
    mkdir -p "$tree/bin" "$tree/tools" "$tree/crates/low/src" "$tree/crates/recw/src" "$tree/crates/other/src"
    cp "$top/recw" "$tree/recw"
    cp "$top/tools/prove" "$top/tools/sources.sh" "$tree/tools"
    cat >"$tree/crates.txt" <<'END'
# comment: of no account
recw opt_level=1: low clap
other: low
low: thiserror
END
    echo code >"$tree/crates/low/src/lib.rt"
    echo code >"$tree/crates/recw/src/main.rt"
    echo code >"$tree/crates/other/src/lib.rt"
    echo "this kit" >"$tree/version"
    cat >"$tree/bin/rattle" <<END
#!/bin/sh
made= jobs= before=
for word; do
    case \$before in
    -o) made=\$word ;;
    --jobs) jobs=\$word ;;
    esac
    before=\$word
done
echo "\$(basename "\$PWD") \$1 --jobs \$jobs" >>'$tree/runs'
echo "prover at work"
for slow in '$tree/slow' '$tree'/slow."\$(basename "\$PWD")"; do
    [ ! -e "\$slow" ] || sleep "\$(cat "\$slow")"
done
[ ! -e '$tree/status' ] || exit "\$(cat '$tree/status')"
: >"\$made"
END
    cat >"$tree/bin/rattle-link" <<END
#!/bin/sh
printf '#!/bin/sh\necho "words: \$*"\ncat\nexit 3\n' >'$tree/crates/recw/out/recw'
chmod 755 '$tree/crates/recw/out/recw'
END
    cat >"$tree/bin/rt" <<END
#!/bin/sh
[ "\$1" != version ] || exec cat '$tree/version'
echo "\$*" >>'$tree/runs'
[ ! -e '$tree/status' ] || exit "\$(cat '$tree/status')"
echo "words: \$*"
cat
printf 'complaint\nchecked: ended status=3\nrun=ended status=3 runners=1 proved=no\n' >&2
exit 3
END
    chmod 755 "$tree"/bin/*
}

# Runs ./recw of the tree with the words, and leaves `status`, and its two outputs in files.
start() {
    start_as "$tree/recw" "$@"
}

start_as() {
    status=0
    echo input | env PATH="$tree/bin:$PATH" "$@" >"$room/out" 2>"$room/err" || status=$?
}

same() {
    [ "$2" = "$3" ] || {
        printf 'FAILED %s\n  want: %s\n  have: %s\n' "$1" "$2" "$3"
        failures=$((failures + 1))
    }
}

program_ran() {
    same "$1: status" 3 "$status"
    same "$1: output" "words: $2
input" "$(cat "$room/out")"
}

runs() {
    sed 's/--jobs [1-4]/--jobs N/' "$tree/runs" 2>/dev/null || :
    rm -f "$tree/runs"
}

# What was said, without how long it takes.
without_times() {
    sed -E 's/(about [1-9][0-9]* minutes|about a minute|less than a minute)/about N minutes/' "$1"
}

whole="low build --jobs N
recw build --jobs N"

make_tree 'first one'
start eval 'a  b'
program_ran 'first start' 'eval a  b'
log=$tree/crates/recw/out/build.log
same 'first start: lines' "recw: the program is proved and built first, in about N minutes; the log is $log
recw: proving low (1 of 2), about N minutes left
recw: proving recw (2 of 2), about N minutes left" "$(without_times "$room/err")"
same 'first start: runs of the prover' "$whole" "$(runs)"

start
program_ran 'second start' ''
same 'second start: lines' '' "$(cat "$room/err")"
same 'second start: runs of the prover' '' "$(runs)"

ln -s "$tree/recw" "$room/link"
start_as "$room/link" x
program_ran 'through a link' x
same 'through a link: lines' '' "$(cat "$room/err")"
cd "$room"
start_as ./link x
program_ran 'from another folder' x
start_as 'first one/recw' x
program_ran 'by a path with a blank' x
cd /

sleep 0.02
echo edited >"$tree/crates/other/src/lib.rt"
start
same 'a crate that is not needed was edited' '' "$(runs)"
echo edited >"$tree/crates/low/src/lib.rt"
start
program_ran 'a source was edited' ''
same 'a source was edited: runs of the prover' "$whole" "$(runs)"
same 'a source was edited: first line' \
    "recw: the program is proved and built first, in about N minutes; the log is $log" \
    "$(without_times "$room/err" | head -n 1)"
sleep 0.02
rm "$tree/crates/low/src/lib.rt"
start
same 'a source was removed' "$whole" "$(runs)"

echo 1 >"$tree/status"
start
program_ran 'the prover is not asked' ''
sleep 0.02
echo edited >"$tree/crates/recw/src/main.rt"
start
same 'not proved: status' 70 "$status"
same 'not proved: output' '' "$(cat "$room/out")"
same 'not proved: last lines' "prover at work
recw: recw was not proved; the whole log is $log" "$(tail -n 2 "$room/err")"
start
same 'not proved, again' 70 "$status"
rm "$tree/status" "$tree/runs"
start
program_ran 'proved at last' ''

make_tree large
head -c 1000000 /dev/zero >"$tree/crates/low/src/lib.rt"
start
same 'minutes grow with the sources' 1 "$(head -n 1 "$room/err" | grep -Ec 'in about [1-9][0-9] minutes; the log')"

make_tree beside
mkdir -p "$tree/crates/side/src"
echo code >"$tree/crates/side/src/lib.rt"
sed -i 's/^recw.*/recw: low side/' "$tree/crates.txt"
echo 'side:' >>"$tree/crates.txt"
head -c 1000 /dev/zero >"$tree/crates/low/src/lib.rt"
start
program_ran 'a crate beside the main line' ''
same 'a crate beside the main line: lines' 2 "$(grep -c proving "$room/err")"
[ "$(nproc)" -eq 1 ] || same 'a crate beside the main line: runs of the prover' "$whole
side build --jobs N" "$(runs | sort -u)"
same 'a crate beside the main line: no folder is left' no "$([ -e "$tree/crates/recw/out/build.begun" ] && echo yes || echo no)"

# The main line has two jobs, or, where nothing else is left, all processors; each crate beside it
# has one.
make_tree places
for crate in middle quick long late; do
    mkdir -p "$tree/crates/$crate/src"
    echo code >"$tree/crates/$crate/src/lib.rt"
done
head -c 200000 /dev/zero >"$tree/crates/low/src/lib.rt"
head -c 100000 /dev/zero >"$tree/crates/long/src/lib.rt"
cat >"$tree/crates.txt" <<'END'
recw: middle quick long late
middle: low
low:
quick:
long:
late: middle
END
printf '#!/bin/sh\necho 3\n' >"$tree/bin/nproc"
chmod 755 "$tree/bin/nproc"
echo 1 >"$tree/slow.low"
echo 4 >"$tree/slow.long"
start
program_ran 'places' ''
free=$(awk '/^MemAvailable:/ { print int($2 / 3000000) }' /proc/meminfo)
if [ "$free" -ge 4 ]; then
    same 'places: the main line' "low build --jobs 2
middle build --jobs 2
late build --jobs 2
recw build --jobs 3" "$(grep -Ev '^(long|quick) ' "$tree/runs")"
    same 'places: beside it' "long build --jobs 1
quick build --jobs 1" "$(grep -E '^(long|quick) ' "$tree/runs" | sort)"
    # On two processors two are beside it, so that the short one does not wait for the long one.
    rm -f "$tree/runs"
    printf '#!/bin/sh\necho 2\n' >"$tree/bin/nproc"
    for crate in low long quick; do touch "$tree/crates/$crate/src/lib.rt"; done
    start
    program_ran 'two places' ''
    same 'two places: first' "long build --jobs 1
low build --jobs 2
quick build --jobs 1" "$(head -n 3 "$tree/runs" | sort)"
else
    echo "not tried: who proves what side by side, for which 12 GB have to be free"
fi
rm -f "$tree/runs"

# What somebody beside the main line fails to prove is told of.
make_tree failing
mkdir -p "$tree/crates/side/src"
echo code >"$tree/crates/side/src/lib.rt"
sed -i 's/^recw.*/recw: low side/' "$tree/crates.txt"
echo 'side:' >>"$tree/crates.txt"
head -c 1000 /dev/zero >"$tree/crates/low/src/lib.rt"
echo 1 >"$tree/slow.low"
# shellcheck disable=SC2016
sed -i '/^: >/i case $PWD in */side) exit 1 ;; esac' "$tree/bin/rattle"
start
same 'failing: status' 70 "$status"
same 'failing: last line' "recw: side was not proved; the whole log is $tree/crates/recw/out/build.log" \
    "$(tail -n 1 "$room/err")"
same 'failing: low is kept' "$tree/crates/low/out/start/proved" "$(ls "$tree/crates/low/out/start/proved")"

make_tree unproved
mkdir "$room/texts"
touch "$room/texts/a b's.rec" "$room/texts/c.rec"
cd "$room/texts"
start_as "$tree/recw" --unproved eval --steps 5 "a b's.rec" "$room/texts/c.rec" none.rec
cd /
program_ran 'unproved' "try --data a b's.rec=$room/texts/a b's.rec --data file5/c.rec=$room/texts/c.rec \
-- eval --steps 5 a b's.rec file5/c.rec none.rec"
same 'unproved: lines' "complaint
recw: nothing of this is proved; without --unproved the program is proved first" "$(cat "$room/err")"
same 'unproved: runs of rt' 1 "$(runs | wc -l)"
echo 1 >"$tree/status"
start --unproved eval
same 'unproved, and refused: status' 70 "$status"
same 'unproved, and refused: last line' 'recw: the program was not run' "$(tail -n 1 "$room/err")"

make_tree twice
echo 0.7 >"$tree/slow"
env PATH="$tree/bin:$PATH" "$tree/recw" one >"$room/one" 2>&1 </dev/null &
sleep 0.3
start two
wait "$!" || :
program_ran 'two at once' two
same 'two at once: the other' "words: one" "$(grep words "$room/one")"
same 'two at once: lines' 'recw: another start is building the program, and this one waits for it' "$(cat "$room/err")"
same 'two at once: runs of the prover' "$whole" "$(runs)"

make_tree 'kits'
start
program_ran 'this kit' ''
runs >/dev/null
sleep 0.02
echo edited >"$tree/crates/recw/src/main.rt"
echo "another kit" >"$tree/version"
start
program_ran 'another kit' ''
same 'another kit: runs of the prover' "$whole" "$(runs)"

make_tree 'no locks'
printf '#!/bin/sh\nexit 71\n' >"$tree/bin/flock"
chmod 755 "$tree/bin/flock"
start
program_ran 'no locks' ''
same 'no locks: line' "recw: cannot lock $tree/crates/recw/out/build.lock: let no other start build beside this one" \
    "$(head -n 1 "$room/err")"
same 'no locks: runs of the prover' "$whole" "$(runs)"

for signal in INT TERM HUP KILL; do
    make_tree "$signal"
    echo 0.7 >"$tree/slow"
    # a shell starts what it puts in the background deaf to INT
    env --default-signal=INT PATH="$tree/bin:$PATH" "$tree/recw" >"$room/out" 2>"$room/err" </dev/null &
    sleep 0.3
    kill -s "$signal" "$!"
    status=0
    # some shells say what ended it
    { wait "$!" || status=$?; } 2>/dev/null
    same "$signal: status" "$signal" "$(kill -l "$status")"
    [ "$signal" = KILL ] ||
        same "$signal: line" 'recw: stopped; what has been proved is kept, and the next start goes on from there' \
            "$(tail -n 1 "$room/err")"
    rm -f "$tree/slow" "$tree/runs"
    start
    program_ran "after $signal" ''
done

make_tree broken
start
# as where a build broke off behind the program
touch "$tree/crates/recw/out/build.unfinished"
runs >/dev/null
start
program_ran 'a build that broke off' ''
same 'a build that broke off: runs of the prover' 'recw build --jobs N' "$(runs)"

make_tree bare
status=0
mkdir "$room/few"
for command in sh readlink dirname awk sed find head wc cat nproc mkdir touch flock; do
    ln -s "$(command -v "$command")" "$room/few/$command"
done
PATH=$room/few "$tree/recw" >"$room/out" 2>"$room/err" </dev/null || status=$?
same 'no rt: status' 69 "$status"
same 'no rt: line' 'recw: there is no command rt, which is needed to prove and build the program' "$(cat "$room/err")"

# Root may write anywhere, so it tries this as nobody.
start_as_reader() {
    if [ "$(id -u)" -eq 0 ]; then
        start_as setpriv --reuid=65534 --regid=65534 --clear-groups "$tree/recw" "$@"
    else
        start "$@"
    fi
}
make_tree reader
find "$tree" -type d -exec chmod a-w {} +
start_as_reader
same 'read-only: status' 73 "$status"
same 'read-only: line' "recw: cannot write to $tree/crates/low/out, which is needed to prove and build the program" \
    "$(cat "$room/err")"
find "$tree" -type d -exec chmod u+w {} +
start
program_ran 'may be written' ''
find "$tree" -type d -exec chmod a-w {} +
start_as_reader y
program_ran 'read-only, but built' y
same 'read-only, but built: lines' '' "$(cat "$room/err")"
find "$tree" -type d -exec chmod u+w {} +

# A tree with a release: a program that prints other words than the one that is built.
sources_of_tree() {
    sh -c 'top=$1; . "$1/tools/sources.sh"; sources_hash recw' sh "$tree"
}

sum_of() {
    sha256sum <"$1" | cut -d ' ' -f 1
}

make_release() {
    make_tree "$1"
    mkdir "$tree/release"
    # what is unpacked is asked for its version first
    cat >"$tree/program" <<'END'
#!/bin/sh
[ "$1" != --version ] || exit 0
echo "packed: $*"
cat
exit 3
END
    pack
}

pack() {
    xz -9 <"$tree/program" >"$tree/release/recw.xz"
    cat >"$tree/release/manifest" <<END
version 0.1.0
rt this kit
recw.sources $(sources_of_tree)
recw.file $(sum_of "$tree/program")
recw.packed $(sum_of "$tree/release/recw.xz")
END
}

# Runs ./recw with neither rt nor the prover.
start_without_kit() {
    mv "$tree/bin" "$tree/no-bin"
    PATH=/usr/sbin:/usr/bin:/sbin:/bin start "$@"
    mv "$tree/no-bin" "$tree/bin"
}

packed_ran() {
    same "$1: status" 3 "$status"
    same "$1: output" "packed: $2
input" "$(cat "$room/out")"
    same "$1: lines" '' "$(cat "$room/err")"
    same "$1: runs of the prover" '' "$(runs)"
}

make_release 'release here'
start_without_kit eval 'a  b'
packed_ran 'the program of release/' 'eval a  b'
unpacked=$tree/crates/recw/out/release/recw
first=$(stat -c %i "$unpacked")
start x
packed_ran 'the program of release/, again' x
start --which
same 'the path of the program' "$unpacked" "$(cat "$room/out")"
same 'it is unpacked once' "$first" "$(stat -c %i "$unpacked")"
same 'nothing else is there' 'recw stamp' "$(cd "$tree/crates/recw/out/release" && echo *)"
sleep 0.02
touch "$tree/crates/low/src/lib.rt"
start x
packed_ran 'a source was touched' x
echo edited >"$tree/crates/other/src/lib.rt"
: >"$tree/crates/low/src/lib.rt~"
: >"$tree/crates/low/src/.lib.rt.swp"
start x
packed_ran 'a crate that is not needed was edited, and an editor left files' x
sleep 0.02
printf '#!/bin/sh\necho changed\n' >"$unpacked"
start x
packed_ran 'the unpacked program was changed' x
rm -r "$tree/crates/recw/out"
"$tree/recw" one >"$room/one" 2>&1 </dev/null &
start two
wait "$!" || :
packed_ran 'two at once, unpacked' two
same 'two at once, unpacked: the other' 'packed: one' "$(cat "$room/one")"
start --prove x
same 'a word behind --prove: status' 2 "$status"

sleep 0.02
echo edited >"$tree/crates/low/src/lib.rt"
start_without_kit
same 'release, and a source was edited: status' 69 "$status"
same 'release, and a source was edited: lines' "recw: the sources are not those of release/
recw: there is no command rt, which is needed to prove and build the program" "$(cat "$room/err")"
start
program_ran 'release, and a source was edited' ''
same 'release, and a source was edited: first lines' "recw: the sources are not those of release/
recw: the program is proved and built first, in about N minutes; the log is $tree/crates/recw/out/build.log" \
    "$(without_times "$room/err" | head -n 2)"
same 'release, and a source was edited: runs of the prover' "$whole" "$(runs)"
start --which
same 'the path of the program that was built' "$tree/crates/recw/out/recw" "$(cat "$room/out")"
start
program_ran 'release, and a source was edited, again' ''
same 'release, and a source was edited, again: lines' '' "$(cat "$room/err")"
start --prove
same 'proved of other sources: status' 0 "$status"
built=$(sum_of "$tree/crates/recw/out/recw")
same 'proved of other sources: lines' "recw: proved and built: crates/recw/out/recw has the hash $built
recw: release/ was made from other sources, and its program has the hash $(sum_of "$tree/program")" "$(cat "$room/err")"
sleep 0.02
echo code >"$tree/crates/low/src/lib.rt"
start x
packed_ran 'the sources of release/ are back' x

make_release 'release compared'
start --prove
same 'another program was proved: status' 70 "$status"
same 'another program was proved: last lines' "recw: proved and built: crates/recw/out/recw has the hash $built
recw: release/recw.xz holds another program: release/manifest has the hash $(sum_of "$tree/program")" \
    "$(tail -n 2 "$room/err")"
same 'another program was proved: runs of the prover' "$whole" "$(runs)"
echo 'a later kit' >"$tree/version"
start --prove
same 'proved by another kit: line' 'recw: the kit here is a later kit, and that of release/ is this kit' \
    "$(sed -n 2p "$room/err")"
cp "$tree/crates/recw/out/recw" "$tree/program"
pack
start --prove
same 'the same program was proved: status' 0 "$status"
same 'the same program was proved: output' '' "$(cat "$room/out")"
same 'the same program was proved: last line' 'recw: release/recw.xz holds the same program, byte for byte' \
    "$(tail -n 1 "$room/err")"
rm -r "$tree/release"
start --prove
same 'no release: status' 0 "$status"
same 'no release: last line' 'recw: there is no release/ to compare it with' "$(tail -n 1 "$room/err")"

# nothing is run whose hash is wrong
make_release 'release changed'
start
wanted=$(sum_of "$tree/release/recw.xz")
sleep 0.02
printf X | dd of="$tree/release/recw.xz" bs=1 seek=30 conv=notrunc status=none
start
same 'the packed program was changed: status' 70 "$status"
same 'the packed program was changed: output' '' "$(cat "$room/out")"
same 'the packed program was changed: line' "recw: release/recw.xz is not run: \
it has the hash $(sum_of "$tree/release/recw.xz"), release/manifest has $wanted" "$(cat "$room/err")"
pack
start
packed_ran 'packed anew' ''
printf '#!/bin/sh\necho worse\n' | xz -9 >"$tree/release/recw.xz"
sed -i "s/^recw.packed .*/recw.packed $(sum_of "$tree/release/recw.xz")/" "$tree/release/manifest"
start
same 'another program is packed: status' 70 "$status"
same 'another program is packed: line' "recw: release/recw.xz is not run: the unpacked program has the hash \
$(xz -dc <"$tree/release/recw.xz" | sha256sum | cut -d ' ' -f 1), release/manifest has $(sum_of "$tree/program")" \
    "$(cat "$room/err")"
same 'another program is packed: nothing is left' 'recw stamp' "$(cd "$tree/crates/recw/out/release" && echo *)"

make_release 'release reader'
find "$tree" -type d -exec chmod a-w {} +
# who reads it has a cache of their own
mkdir -m 777 "$XDG_CACHE_HOME"
start_as_reader x
packed_ran 'read-only, unpacked into the cache' x
unpacked=$(find "$XDG_CACHE_HOME" -name recw -type f)
first=$(stat -c %i "$unpacked")
start_as_reader y
packed_ran 'read-only, again' y
same 'read-only: it is unpacked once' "$first" "$(stat -c %i "$unpacked")"
rm -r "$XDG_CACHE_HOME"
touch "$XDG_CACHE_HOME"
start_as_reader
same 'no cache: status' 73 "$status"
same 'no cache: line' "recw: cannot write to $tree/crates/recw/out/release or \
$XDG_CACHE_HOME/recw/$(printf '%s' "$tree" | cksum | tr ' ' -), where the program is unpacked" "$(cat "$room/err")"
find "$tree" -type d -exec chmod u+w {} +
rm "$XDG_CACHE_HOME"

# CI compares release/ with what was built
check_release() {
    status=0
    PATH="$tree/bin:$PATH" python3 -B "$tree/packaging/release" --check >"$room/out" 2>"$room/err" || status=$?
}
if command -v python3 >/dev/null; then
    make_release 'release checked'
    mkdir "$tree/packaging"
    cp "$top/packaging/release" "$top/packaging/released.py" "$tree/packaging"
    check_release
    same 'nothing was built: status' 0 "$status"
    same 'nothing was built: line' 1 "$(grep -c '^not compared: recw, since crates/recw/out/recw was not built' "$room/out")"
    mkdir -p "$tree/crates/recw/out"
    cp "$tree/program" "$tree/crates/recw/out/recw"
    check_release
    same 'the same was built: status' 0 "$status"
    same 'the same was built: line' 1 "$(grep -c '^release/recw.xz is crates/recw/out/recw, byte for byte' "$room/out")"
    echo '# changed' >>"$tree/crates/recw/out/recw"
    check_release
    same 'another one was built: status' 1 "$status"
    same 'another one was built: lines' "release: release/ is not current:
  release/recw.xz has the hash $(sum_of "$tree/program"), and crates/recw/out/recw $(sum_of "$tree/crates/recw/out/recw")
  renew release/ by packaging/release" "$(cat "$room/err")"
    cp "$tree/program" "$tree/crates/recw/out/recw"
    echo edited >"$tree/crates/low/src/lib.rt"
    check_release
    same 'other sources: status' 1 "$status"
    same 'other sources: line' 1 "$(grep -c 'release/recw.xz was made from other sources' "$room/err")"
fi

[ "$failures" -eq 0 ] || exit 1
echo "start.sh: all as wanted"
