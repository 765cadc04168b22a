# Read by the scripts beside it, with `rt` and `rustc` on the path.
set -eu
bench=$(cd "$(dirname "$0")" && pwd)
# outside of the repository, whose gate takes every .rt file for one of a crate; the next run goes on with what is proved there
out=${BENCH_OUT:-${TMPDIR:-/tmp}/aeron_policyd-bench-$(id -u)}

# below CRATES: those of them that are the repository's, and all that they stand on, lowest first.
below() {
    awk -v roots="$1" '
        { sub(/#.*/, "") }
        /:/ {
            name = $1
            sub(/:.*/, "", name)
            below[name] = substr($0, index($0, ":") + 1)
        }
        function visit(name, i, count, words) {
            if (!(name in below) || name in seen) return
            seen[name] = 1
            count = split(below[name], words, " ")
            for (i = 1; i <= count; i++) visit(words[i])
            print name
        }
        END { count = split(roots, named, " "); for (i = 1; i <= count; i++) visit(named[i]) }
    ' "$bench/../crates.txt"
}

# copy CRATES: copies of those crates and of all that they stand on, with their lines of crates.txt.
copy() {
    mkdir -p "$out"
    for crate in $(below "$1"); do
        for part in src specs proofs; do
            rm -rf "$out/crates/$crate/$part"
            mkdir -p "$out/crates/$crate"
            if [ -d "$bench/../crates/$crate/$part" ]; then
                cp -pr "$bench/../crates/$crate/$part" "$out/crates/$crate/"
            fi
        done
        grep "^$crate[: ]" "$bench/../crates.txt"
    done >"$out/crates.txt"
}

# compare PROGRAM LIBRARY CRATES: proves LIBRARY, which uses those crates, links PROGRAM.rs with it, and runs that.
compare() {
    copy "$3"
    mkdir -p "$out/crates/$2/src"
    echo "$2 staticlib: $3" >>"$out/crates.txt"
    cp "$bench/$2.rt.txt" "$out/crates/$2/src/lib.rt"
    (cd "$out/crates/$2" && ${RT:-rt} lib)
    rustc --edition 2024 -O -L "$out/crates/$2/out" -l "static=$2" "$bench/$1.rs" -o "$out/$1"
    "$out/$1"
}
