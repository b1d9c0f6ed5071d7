#!/bin/sh
# Counts the instructions of operations on regions, ours beside pixman's, by callgrind.
#   bench/regions.sh
# The crates that `region` is made of are copied to a folder of their own outside the repository, proved
# there with the exports of bench/regions.rattle, and linked with pixman into the program of
# bench/regions.c, which says how an operation is measured. A run takes some minutes. It fails where our
# boxes are not pixman's and where an operation takes more instructions than its target.
set -eu
top=$(cd "$(dirname "$0")/.." && pwd)
bench=$top/bench
room=$(mktemp -d)
trap 'rm -rf "$room"' EXIT

fail() {
    echo "regions: $*" >&2
    exit 1
}

# Runs a command. Only where it fails is shown what it says, with the words $1.
quietly() {
    what=$1
    shift
    "$@" >"$room/log" 2>&1 && return
    tail -n 40 "$room/log" >&2
    fail "$what"
}

has_header() { echo "#include <$1>" | gcc -E -x c -o /dev/null - 2>/dev/null; }

missing=
for tool in rt gcc pkg-config valgrind; do
    command -v "$tool" >/dev/null || missing="$missing, $tool"
done
pkg-config --exists pixman-1 2>/dev/null || missing="$missing, pixman's headers (Debian: libpixman-1-dev)"
has_header valgrind/callgrind.h || missing="$missing, valgrind's headers"
[ -z "$missing" ] || fail "missing: ${missing#, }"

# Prints the line that crates.txt has for the crate $1, after those of the crates that it uses.
lines_of() {
    # shellcheck disable=SC2013
    for used in $(sed -n "s/#.*//; s/^$1://p" "$top/crates.txt"); do
        lines_of "$used"
    done
    grep "^$1:" "$top/crates.txt"
}

cd "$room"
lines_of region | awk '!seen[$0]++' >crates.txt
cut -d: -f1 crates.txt | while read -r crate; do
    mkdir -p "crates/$crate"
    for part in src specs proofs; do
        [ ! -d "$top/crates/$crate/$part" ] || cp -R "$top/crates/$crate/$part" "crates/$crate/"
    done
done
mkdir -p crates/bench_regions/src
cp "$bench/regions.rattle" crates/bench_regions/src/lib.rt
echo "bench_regions staticlib: screen boxes region" >>crates.txt

echo "regions: proving and building; this takes some minutes" >&2
(cd crates/bench_regions && quietly "not proved or not built" rt lib)
# shellcheck disable=SC2046
quietly "not compiled" gcc -std=c11 -O2 -Wall -Wextra $(pkg-config --cflags pixman-1) "$bench/regions.c" \
    crates/bench_regions/out/libbench_regions.a $(pkg-config --libs pixman-1) -o regions

# Calls into pixman are bound before it starts, so that no turn pays for that.
echo "regions: counting" >&2
LD_BIND_NOW=1 valgrind --tool=callgrind --callgrind-out-file=counts --log-file=log \
    --toggle-collect='ours_*' --toggle-collect='theirs_*' ./regions >cases

echo "$(valgrind --version), pixman $(pkg-config --modversion pixman-1), $(rt version)"
awk '
    /^desc: Trigger: Client Request: / { sub(/.*Request: /, ""); split($0, at, " ") }
    /^summary: / {
        k = at[1] " " at[2]
        if (k in turns) cost[k] = ($2 - count[k]) / (at[3] - turns[k])
        else { turns[k] = at[3]; count[k] = $2 }
    }
    FILENAME != "cases" { next }
    FNR == 1 {
        form = "%-35s %-9s  %6s %6s %6s %6s  %9s %9s %9s%s\n"
        printf "\n%47s%27s  %29s\n", "", "---------- boxes ----------", "-------- instructions -------"
        printf form, "operands", "operation", "first", "second", "exact", "result", "ours", "pixman", "at most", ""
    }
    {
        split($0, f, "\t")
        ours = cost[f[1] " ours"]
        theirs = cost[f[1] " theirs"]
        if (ours <= 0 || theirs <= 0) { print "regions: nothing was counted"; bad = 1; exit }
        target = f[8] > 0 ? f[8] : "-"
        over = f[8] > 0 && ours > f[8] ? " over" : ""
        if (over) bad = 1
        printf form, f[2], f[3], f[4], f[5], f[6], f[7], sprintf("%.0f", ours), sprintf("%.0f", theirs), target, over
    }
    END { exit bad }
' counts.* cases
