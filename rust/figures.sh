#!/bin/sh
# The figures: the library against plain Rust, whole and stage by stage; or the scan of every pair against the search for neighbours, and
# whole builds of many wells; or the build that cuts depth first against the queue's, whole and its cut stage; or the cut stage, the
# neighbour stage and sampling against those of an earlier commit. Each in one run. Not a test, and nothing that the gate runs.
#
#   rust/figures.sh [--search | --engines | --against COMMIT]
#
# The stages are inner functions that ask something of their callers, so the product exports none of them: a copy of the repository
# gets the crate of rust/stages, which exports them, and is built apart. Needs rt and cargo, on x86-64, and for --against a C compiler
# (CC names another one) and git; takes some minutes, and --search a quarter of an hour.
set -eu
cd "$(dirname "$0")/.."
against=
case "$#${1-}" in
0) figures=figures ;;
1--search) figures=search_figures ;;
1--engines) figures=engine_figures ;;
2--against) figures= against=$(git rev-parse --verify "$2^{commit}") ;;
*) echo "use: rust/figures.sh [--search | --engines | --against COMMIT]" >&2; exit 2 ;;
esac
made=$(mktemp -d)
trap 'rm -rf "$made"' EXIT

# Gives the copy $1 the crate of its rust/stages, which cites the crates that its texts name. A text of proofs/ is that of one function.
add_stages() {
    stages=$1/rust/stages crate=$1/crates/ddm_stages
    mkdir -p "$crate/src"
    cp "$stages/lib.rt.txt" "$crate/src/lib.rt"
    for proof in "$stages"/proofs/*.antt.txt; do
        [ -f "$proof" ] || continue
        function=$(basename "$proof" .antt.txt)
        mkdir -p "$crate/proofs/$function"
        cp "$proof" "$crate/proofs/$function/Answers.antt"
    done
    cited=$(find "$stages" -name '*.txt' -exec grep -ohE 'Rattle\.[a-z0-9_]+|[a-z0-9_]+::' {} + | sed 's/^Rattle\.//; s/::$//' \
        | grep -vx -e std -e ddm_stages | sort -u | tr '\n' ' ')
    echo "ddm_stages staticlib: $cited" >> "$1/crates.txt"
}

# The shared library $made/$1_$2.so out of the archive of the crate $2 in the copy $1.
share() {
    "${CC:-cc}" -shared -o "$made/$1_$2.so" -Wl,-z,defs -Wl,-z,noexecstack -Wl,--whole-archive "$made/$1/target/staticlib/lib$2.a" \
        -Wl,--no-whole-archive
}

# Runs the example $1.
run() {
    example=$1
    shift
    REKVASHU_LIB="$made/now/target/staticlib" \
        cargo run --manifest-path rust/Cargo.toml --release --offline --features figures --example "$example" -- "$@"
}

mkdir -p "$made/now/rust"
cp -r crates crates.txt tools "$made/now"
cp -r rust/stages "$made/now/rust"
add_stages "$made/now"
(cd "$made/now" && tools/build.sh ddm_c ddm_stages)
if [ -z "$against" ]; then
    run "$figures"
else
    mkdir "$made/before"
    git archive -o "$made/before.tar" "$against" crates crates.txt tools rust/stages c/ddm.h
    tar -xf "$made/before.tar" -C "$made/before"
    version=$(sed -n 's/^#define DDM_VERSION \([0-9]*\)$/\1/p' "$made/before/c/ddm.h")
    add_stages "$made/before"
    (cd "$made/before" && tools/build.sh ddm_c ddm_stages)
    for copy in before now; do
        share "$copy" ddm_c
        share "$copy" ddm_stages
    done
    git log -1 --format='before: %h %s' "$against"
    run cut_figures "$made/before_ddm_stages.so" "$made/now_ddm_stages.so" "$version"
    run overlap_figures "$made/before_ddm_stages.so" "$made/now_ddm_stages.so" "$version"
    run sample_figures "$made/before_ddm_c.so" "$made/now_ddm_c.so" "$version"
fi
