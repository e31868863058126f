#!/bin/sh
# Puts the library under PREFIX: include/ddm.h and ddm_tree.h, lib/libddm_c.a, the shared library, and lib/pkgconfig/ddm.pc.
#
#   c/install.sh PREFIX        CC names another compiler, REKVASHU_LIB the folder of libddm_c.a (target/staticlib otherwise)
#
#   cc program.c $(pkg-config --cflags --libs ddm)             links the shared library
#   cc program.c $(pkg-config --cflags ddm) "$(pkg-config --variable=archive ddm)"       links the archive
#
# Exit statuses: 0 installed, 1 it can't be, 2 wrong use.
set -eu
[ $# -eq 1 ] && [ -n "$1" ] || { echo "use: c/install.sh PREFIX" >&2; exit 2; }
here=$(cd "$(dirname "$0")" && pwd)
archive=${REKVASHU_LIB:-$here/../target/staticlib}/libddm_c.a
[ -f "$archive" ] || { echo "c/install.sh: $archive is not there: make it by 'tools/build.sh ddm_c'" >&2; exit 1; }

number=$(sed -n 's/^#define DDM_VERSION \([0-9]*\)$/\1/p' "$here/ddm.h")
major=$((number / 10000))
version=$major.$((number / 100 % 100)).$((number % 100))
name=libddm_c.so.$major

mkdir -p "$1/include" "$1/lib/pkgconfig"
prefix=$(cd "$1" && pwd)
"$here/shared.sh" "$prefix/lib/$name"
ln -sf "$name" "$prefix/lib/libddm_c.so"
for file in "$here/ddm.h" "$here/ddm_tree.h"; do
    install -m 644 "$file" "$prefix/include"
done
install -m 644 "$archive" "$prefix/lib"
cat > "$prefix/lib/pkgconfig/ddm.pc" << END
prefix=$prefix
includedir=\${prefix}/include
libdir=\${prefix}/lib
archive=\${libdir}/libddm_c.a

Name: ddm
Description: The proved tree construction of a domain decomposition preconditioner
Version: $version
Cflags: -I\${includedir}
Libs: -L\${libdir} -lddm_c
END
echo "installed ddm $version under $prefix"
