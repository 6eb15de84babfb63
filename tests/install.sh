#!/usr/bin/env bash
# The library as a package: `make install` into a temporary DESTDIR puts every file where PREFIX says and nothing
# elsewhere; host/hello.c builds against it by pkg-config alone, static and shared, and runs; uninstall leaves nothing.
# `make test` runs the gate, and a build without the kit says what is missing.
#
# tests/install.sh [ARCHIVE]        host/build/libregister.a; needs gcc, make, pkg-config
set -euo pipefail
cd "$(dirname "$0")/.."
fail() { echo "install: $*" >&2; exit 1; }
archive=$(realpath "${1:-host/build/libregister.a}")
work=$(mktemp -d)
trap 'rm -rf "$work"' EXIT
root=$work/root prefix=/opt/register
version=$(sed -n 's/^#define ZKV_VERSION "\(.*\)"$/\1/p' include/zitskvoze.h)
package() { make -s ARCHIVE="$archive" PREFIX="$prefix" DESTDIR="$root" "$@" > "$work/log" 2>&1 || { cat "$work/log" >&2; fail "make $*"; }; }

package install
package install                             # a second time over the first
found=$(cd "$root" && find . ! -type d | sort | tr '\n' ' ')
wanted=$(sort <<END | tr '\n' ' '
.$prefix/bin/zkv
.$prefix/include/zitskvoze.h
.$prefix/include/zitskvoze_file.h
.$prefix/lib/libzitskvoze.a
.$prefix/lib/libzitskvoze.so
.$prefix/lib/libzitskvoze.so.1
.$prefix/lib/libzitskvoze.so.$version
.$prefix/lib/pkgconfig/zitskvoze.pc
.$prefix/share/man/man1/zkv.1
.$prefix/share/man/man3/zitskvoze.3
END
)
[ "$found" = "$wanted" ] || fail "installed are $found, and not $wanted"
[ "$("$root$prefix/bin/zkv" --version)" = "zkv $version" ] || fail "the installed zkv is another"
for page in man1/zkv.1 man3/zitskvoze.3; do
    grep -q "$version" "$root$prefix/share/man/$page" || fail "$page is of another version"
done

export PKG_CONFIG_SYSROOT_DIR=$root PKG_CONFIG_LIBDIR=$root$prefix/lib/pkgconfig
[ "$(pkg-config --modversion zitskvoze)" = "$version" ] || fail "pkg-config has another version"
mkdir "$work/host"
cp host/hello.c "$work/host"
cd "$work/host"
gcc -std=c11 -O2 -Wall -Wextra -Werror -o shared hello.c $(pkg-config --cflags --libs zitskvoze)
gcc -std=c11 -O2 -Wall -Wextra -Werror -static -o static hello.c $(pkg-config --static --cflags --libs zitskvoze)
readelf -d shared | grep -q 'NEEDED.*\[libzitskvoze\.so\.1\]' || fail "the shared host does not ask for libzitskvoze.so.1"
! readelf -d static | grep -q NEEDED || fail "the static host asks for a shared library"
[ "$(LD_LIBRARY_PATH=$root$prefix/lib ./shared)" = "A+ 450 ml" ] || fail "the shared host's label does not come back"
[ "$(LD_LIBRARY_PATH=$root$prefix/lib ./shared 800 | grep -cx 'A+ 450 ml')" = 800 ] || fail "800 labels do not come back"
[ "$(./static)" = "A+ 450 ml" ] || fail "the static host's label does not come back"
! ./shared 2> /dev/null || fail "the shared host runs without the library"
exported=$(nm -D --defined-only "$root$prefix/lib/libzitskvoze.so" | sed 's/^[0-9a-f]* //' | grep -v '^T zkv_' || true)
[ -z "$exported" ] || fail "the shared library also exports $exported"
! readelf -lW "$root$prefix/lib/libzitskvoze.so" | grep -q 'GNU_STACK.*RWE' || fail "the shared library asks for an executable stack"

cd "$OLDPWD"
package uninstall
[ -z "$(find "$root" ! -type d)" ] || fail "uninstall leaves $(find "$root" ! -type d)"
[ "$(make -n test)" = .ci/run ] || fail "make test runs $(make -n test)"
mkdir "$work/bin"
ln -s "$(command -v make)" "$(command -v sed)" "$work/bin"
status=0
PATH=$work/bin make -C host archive LIBRARY="$work/none.a" > "$work/log" 2>&1 || status=$?
[ "$status" -eq 2 ] || fail "a build without the kit ends with $status"
grep -qF 'rt (the Rattle kit) is not on the path' "$work/log" || fail "a build without the kit says $(cat "$work/log")"
echo "install: hello builds and runs by pkg-config, static and shared; nothing is left by uninstall"
