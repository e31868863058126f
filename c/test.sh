#!/bin/sh
# The tests of the C and C++ part: both examples, the tests of each header, the sanitizers, the floating environment, the shared library
# and the installation. The static library is made where it isn't there.
#
#   c/test.sh        CC and CXX name other compilers, REKVASHU_LIB the folder of libddm_c.a
set -eu
cd "$(dirname "$0")/.."
cc=${CC:-cc}
cxx=${CXX:-c++}
folder=${REKVASHU_LIB:-target/staticlib}
lib=$folder/libddm_c.a

there() {
    command -v "$1" > /dev/null 2>&1
}

skipped() {
    echo "c/test.sh: NOT RUN: $1"
}

failed() {
    echo "c/test.sh: $1" >&2
    exit 1
}

there "$cc" || { skipped "there is no C compiler ('$cc'), so nothing was compiled"; exit 0; }
[ "$(uname -m)" = x86_64 ] || { skipped "the static library is for x86-64, and this machine is $(uname -m)"; exit 0; }
if [ ! -f "$lib" ]; then
    there rt || failed "$lib is not there, and no 'rt' to make it"
    tools/build.sh ddm_c
fi

made=$(mktemp -d)
trap 'rm -rf "$made"' EXIT
strict='-O2 -pedantic -Wall -Wextra -Werror'

# compile NAME FLAGS..: the C program NAME against the archive
compile() {
    name=$1
    shift
    # shellcheck disable=SC2086
    "$cc" -std=c99 $strict "$@" -o "$made/$name" "c/$name.c" "$lib"
}

# The example prints what the plain model says.
right_example() {
    "$@" > "$made/printed" || failed "$1 failed"
    diff c/example.out "$made/printed" || failed "$1 printed something else than c/example.out"
}

# ---- strides and slots stand by name in every program: a request that widens a row changes the headers alone
literal='(row|result)\[[0-9]|[0-9] \+ level|[^0-9](4|5|12) \* |2 \* (d|dimensions?|AXES|domains|leaves)[^a-z]|(BOX|box)_(FLOATS|floats)\([^)]*\) \+ 1'
! grep -nE "$literal" c/*.c c/*.cpp c/ddm_tree.h rust/src/[!p]*.rs rust/examples/*.rs rust/examples/*/*.rs rust/tests/*.rs \
    || failed "a stride or a slot without its name"

# ---- C and C++, plain and under the sanitizers
programs() {
    for name in example lists slots tree stored record table; do
        compile "$name" "$@"
    done
    right_example "$made/example"
    # c/lists.c follows no cuts, and has no line of a well
    grep -v '^well ' c/example.out > "$made/lists.out"
    "$made/lists" | diff "$made/lists.out" - || failed "c/lists.c printed something else than c/example.out"
    "$made/slots"
    "$made/tree"
    "$made/stored"
    "$made/record"
    "$made/table"
    there "$cxx" || { skipped "the C++ program (there is no '$cxx')"; return; }
    # shellcheck disable=SC2086
    "$cxx" -std=c++11 $strict "$@" -o "$made/both" c/both.cpp "$lib"
    "$made/both"
}

# one job stream as a batch of one: a count and a length of 4 bytes, little-endian
as_batch() {
    length=$(wc -c < "$1")
    # shellcheck disable=SC2059
    printf "\\1\\0\\0\\0\\$(printf %o $((length % 256)))\\$(printf %o $((length / 256)))\\0\\0"
    cat "$1"
}

programs
compile batch
for sample in four_wells field_32; do
    as_batch samples/$sample.job | "$made/batch" | sed 1d | diff samples/$sample.txt - || failed "c/batch.c: another tree for $sample"
done
compile threads -pthread
"$made/threads"
if echo 'int main(void) { return 0; }' | "$cc" -fsanitize=address,undefined -x c -o "$made/sanitized" - 2> /dev/null \
    && "$made/sanitized" 2> /dev/null; then
    echo "under the address and undefined behaviour sanitizers:"
    programs -g -fsanitize=address,undefined -fno-sanitize-recover=all
else
    skipped "the sanitizers ('$cc' has none here)"
fi

# ---- the floating environment
compile flush
[ "$("$made/flush")" = "flush off, left leaf row 1" ] || failed "c/flush.c: another tree without flush to zero"
[ "$("$made/flush" on)" = "flush on, left leaf row 0" ] || failed "c/flush.c: flush to zero does not show"
compile flush -ffast-math
case $("$made/flush") in
    "flush on, left leaf row 0") echo "flush: ok" ;;
    "flush off, left leaf row 1") skipped "-ffast-math ('$cc' does not turn flush to zero on by it)" ;;
    *) failed "c/flush.c: another tree with -ffast-math" ;;
esac

# ---- no global state, exactly the public names, and two from outside
sed -n 's/^size_t \(ddm_[a-z_]*\)(.*/\1/p' c/ddm.h | sort > "$made/names"
if there nm; then
    ! nm "$lib" | grep ' [BbCDd] ' || failed "the archive has data that can be written"
    nm -g --defined-only "$lib" | sed -n 's/^[0-9a-f]* [A-Z] //p' | sort > "$made/in_archive"
    diff "$made/names" "$made/in_archive" || failed "the archive's names are not those of c/ddm.h"
    # a compiler may write calls of these two itself, and a program without a C library has them
    nm -u "$lib" | sed -n 's/^ *U //p' | sort -u > "$made/from_outside"
    printf 'memcpy\nmemset\n' | diff - "$made/from_outside" || failed "the archive needs other names from outside than memcpy and memset"
else
    skipped "the names of the libraries (there is no 'nm')"
fi

# ---- the installation
status() {
    "$@" > "$made/said" 2>&1 && echo 0 || echo $?
}

# installed KIND FLAGS..: the example, and the C++ program where there is a compiler, built in a folder of their own by these flags
installed() {
    kind=$1
    shift
    "$cc" -O2 -o "$made/apart/example_$kind" "$made/apart/example.c" "$@"
    right_example "$made/apart/example_$kind"
    there "$cxx" || return 0
    "$cxx" -O2 -o "$made/apart/both_$kind" "$made/apart/both.cpp" "$@"
    "$made/apart/both_$kind" > /dev/null || failed "both.cpp failed with the installed $kind"
}

[ "$(status c/install.sh)" = 2 ] || failed "c/install.sh without a prefix is no wrong use"
[ "$(status env REKVASHU_LIB="$made/nowhere" c/install.sh "$made/prefix")" = 1 ] || failed "c/install.sh installs without an archive"
if there nm; then
    REKVASHU_LIB=$folder c/install.sh "$made/prefix" > /dev/null
    nm -D --defined-only "$made/prefix/lib/libddm_c.so" | sed 's/.* //' | sort > "$made/in_shared"
    diff "$made/names" "$made/in_shared" || failed "the shared library's names are not those of c/ddm.h"
    mkdir "$made/apart"
    cp c/example.c c/both.cpp "$made/apart"
    if there pkg-config; then
        export PKG_CONFIG_PATH="$made/prefix/lib/pkgconfig"
        # shellcheck disable=SC2046
        installed shared $(pkg-config --cflags --libs ddm) -Wl,-rpath,"$(pkg-config --variable=libdir ddm)"
        # shellcheck disable=SC2046
        installed archive $(pkg-config --cflags ddm) "$(pkg-config --variable=archive ddm)"
    else
        skipped "ddm.pc (there is no 'pkg-config'); the flags are written by hand"
        installed shared -I"$made/prefix/include" -L"$made/prefix/lib" -lddm_c -Wl,-rpath,"$made/prefix/lib"
        installed archive -I"$made/prefix/include" "$made/prefix/lib/libddm_c.a"
    fi
    ! there ldd || ldd "$made/apart/example_shared" | grep -q 'libddm_c.so.0 => /' || failed "the example did not load the shared library"
    echo "install: ok"
else
    skipped "the installation (there is no 'nm' to name what the shared library exports)"
fi
echo "c/test.sh: ok"
