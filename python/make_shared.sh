#!/bin/sh
# Makes target/shared/libddm_c.so, the shared library that the Python package loads. The static library is made first where it isn't
# there: that needs the Rattle kit, and proves all that the library stands on.
#
#   python/make_shared.sh        CC names another compiler, REKVASHU_LIB the folder of libddm_c.a
set -eu
cd "$(dirname "$0")/.."
if [ ! -f "${REKVASHU_LIB:-target/staticlib}/libddm_c.a" ]; then
    command -v rt > /dev/null 2>&1 || { echo "python/make_shared.sh: there is no libddm_c.a, and no 'rt' to make it" >&2; exit 1; }
    tools/build.sh ddm_c
fi
c/shared.sh target/shared/libddm_c.so
echo "made target/shared/libddm_c.so"
