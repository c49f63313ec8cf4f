# The sources of a crate: functions for ./recw, tools/prove and packaging/release, which read this file
# with `.` and set `top`, the folder of the repository.
# shellcheck shell=sh

# The lines of crates.txt of a crate and of all crates below it, each crate after those that it uses.
crate_lines() {
    awk -F: -v whole="$1" '
        function visit(name, words, count, i) {
            if (name in seen || !(name in uses)) return
            seen[name] = 1
            count = split(uses[name], words, " ")
            for (i = 1; i <= count; i++) visit(words[i])
            print line[name]
        }
        /^[^#]/ { split($1, head, " "); uses[head[1]] = $2; line[head[1]] = $0 }
        END { visit(whole) }
    ' "${top:?}/crates.txt"
}

# The names of these crates.
needed_for() (
    lines=$(crate_lines "$1") || exit 1
    printf '%s\n' "$lines" | sed 's/[ :].*//'
)

# Whether a file is at least as new as the sources of some crates, given as one word, and further files.
is_newest() (
    newest=$1
    below=$2
    shift 2
    [ -e "$newest" ] || exit 1
    for crate in $below; do
        set -- "$@" "crates/$crate/src" "crates/$crate/specs" "crates/$crate/proofs"
    done
    # some crates lack some of these folders
    newer=$(cd -- "$top" && find crates.txt "$@" -newer "$newest" -print 2>/dev/null | head -n 1)
    [ -z "$newer" ]
)

# The hash of the sources of a crate and of all crates below it, and of further files: their lines of
# crates.txt, and of each file its hash and its path.
sources_hash() (
    whole=$1
    shift
    cd -- "$top" || exit 1
    for crate in $(needed_for "$whole"); do
        for part in src specs proofs; do
            [ ! -d "crates/$crate/$part" ] || set -- "$@" "crates/$crate/$part"
        done
    done
    {
        crate_lines "$whole" | LC_ALL=C sort
        find "$@" -type f ! -name ".*" ! -name "*~" ! -name "#*" -print0 | LC_ALL=C sort -z | xargs -0 sha256sum
    } | sha256sum | cut -d ' ' -f 1
)

# The value of a key of release/manifest.
manifest() {
    sed -n "s/^$1 //p" "$top/release/manifest"
}
