#!/bin/sh
# Builds programs to target/bin/NAME, and the static library of the C callers to target/staticlib/libddm_c.a. Each is proved first, with all
# that it stands on; what was proved before is kept in the crates' folders out/.
#
#   tools/build.sh              the three programs and the static library
#   tools/build.sh NAME..       these
set -eu
cd "$(dirname "$0")/.."
top=$PWD
[ $# -gt 0 ] || set -- ddm_c ddm_tree ddm_keep ddm_reload

# The lines of crates.txt of these crates and of all that they stand on.
lines_below() {
    awk -v names="$*" '
        { sub(/#.*/, "") }
        /:/ {
            name = $1
            sub(/:.*/, "", name)
            line[name] = $0
            sub(/^[^:]*:/, "")
            below[name] = $0
        }
        END {
            left = split(names, waiting, " ")
            while (left) {
                name = waiting[left--]
                if (name in seen || !(name in line)) continue
                seen[name] = 1
                print line[name]
                count = split(below[name], more, " ")
                for (i = 1; i <= count; i++) waiting[++left] = more[i]
            }
        }' crates.txt
}

# rt lib and rt run prove what a crate stands on one crate after the other. Where nothing is kept here it is quicker side by side, in a copy
# of these crates alone: rt takes over what was proved there. It serves for nothing else, so that it may fail.
prove_side_by_side() {
    mkdir "$made/crates"
    lines_below "$@" > "$made/crates.txt"
    sed 's/[ :].*//' "$made/crates.txt" | while read -r name; do
        mkdir "$made/crates/$name"
        for part in "crates/$name"/*; do
            [ "$part" = "crates/$name/out" ] || cp -R "$part" "$made/crates/$name"
        done
    done
    cd "$made"
    rt all check --jobs "$(getconf _NPROCESSORS_ONLN)"
}

made=$(mktemp -d)
trap 'rm -rf "$made"' EXIT
for name in "$@"; do
    if [ ! -d "crates/$name/out/incremental" ]; then
        (prove_side_by_side "$@") > "$made/log" 2>&1 || true
        break
    fi
done

for name in "$@"; do
    cd "$top/crates/$name"
    if [ -f src/main.rt ]; then
        # rt builds a program by running it, here on no input: what it says and how it ends is nothing to go by
        rm -f "out/$name"
        rt run < /dev/null > out.log 2>&1 || true
        if [ ! -f "out/$name" ]; then
            cat out.log >&2
            rm -f out.log
            exit 1
        fi
        rm -f out.log
        mkdir -p "$top/target/bin"
        cp "out/$name" "$top/target/bin/$name"
    else
        rt lib
        mkdir -p "$top/target/staticlib"
        cp "out/lib$name.a" "$top/target/staticlib/lib$name.a"
    fi
done
