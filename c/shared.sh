#!/bin/sh
# Links the shared library from the static one. It exports exactly the public names: those that the archive defines for its callers.
#
#   c/shared.sh OUTPUT [OBJECT..]        further OBJECTs are linked in, and their names are exported too
#
# CC names another compiler, REKVASHU_LIB the folder of libddm_c.a. Exit statuses: 0 made, 1 it can't be made, 2 wrong use.
set -eu
[ $# -ge 1 ] || { echo "use: c/shared.sh OUTPUT [OBJECT..]" >&2; exit 2; }
output=$1
shift
archive=${REKVASHU_LIB:-$(dirname "$0")/../target/staticlib}/libddm_c.a

cannot() {
    echo "c/shared.sh: $1" >&2
    exit 1
}

for tool in "${CC:-cc}" nm; do
    command -v "$tool" > /dev/null 2>&1 || cannot "there is no '$tool' on this machine"
done
[ "$(uname -s) $(uname -m)" = "Linux x86_64" ] || cannot "the library is for Linux on x86-64, and this machine is $(uname -s) $(uname -m)"
[ -f "$archive" ] || cannot "$archive is not there: make it by 'tools/build.sh ddm_c'"

names=$(mktemp)
trap 'rm -f "$names"' EXIT
{
    echo '{ global:'
    nm -g --defined-only "$archive" "$@" | sed -n 's/^[0-9a-f]* [A-Z] \(.*\)$/    \1;/p'
    echo 'local: *; };'
} > "$names"
mkdir -p "$(dirname "$output")"
"${CC:-cc}" -shared -o "$output" -Wl,-soname,"$(basename "$output")" -Wl,-z,defs -Wl,-z,noexecstack -Wl,--version-script="$names" \
    -Wl,--whole-archive "$archive" -Wl,--no-whole-archive "$@"
