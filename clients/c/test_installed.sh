#!/bin/sh
# Installs the library into a folder and uses it from there as a program would. It ends by itself, and prints what failed.
set -eu
cd "$(dirname "$0")"
folder=$(mktemp -d)
trap 'rm -rf "$folder"' EXIT
fail() { echo "femem client, installed: $*" >&2; exit 1; }

version=$(sed -n 's/^#define FEMEM_VERSION "\(.*\)"/\1/p' femem.h)
shared=libfemem.so.${version%%~*}
make -s install DESTDIR="$folder/root" PREFIX=/usr LDCONFIG="touch $folder/staged"
[ ! -e "$folder/staged" ] || fail "ldconfig runs where nothing is installed for this machine"
make -s install PREFIX="$folder/own" LDCONFIG="touch $folder/told"
[ -e "$folder/told" ] || fail "ldconfig does not run after an installation"
make -s install PREFIX="$folder/own" LDCONFIG=false || fail "an installation ends where ldconfig fails"
root=$folder/root/usr
for file in include/femem.h lib/libfemem.a lib/$shared lib/pkgconfig/femem.pc share/man/man3/libfemem.3; do
  [ -f "$root/$file" ] || fail "$file is missing"
done
[ "$(readlink "$root/lib/libfemem.so")" = libfemem.so.1 ] || fail "libfemem.so"
[ "$(readlink "$root/lib/libfemem.so.1")" = "$shared" ] || fail "libfemem.so.1"

# Both libraries export the header's functions, and no other name.
grep -o '\bfemem_[a-z_]*(' femem.h | tr -d '(' | sort -u > "$folder/declared"
[ "$(wc -l < "$folder/declared")" -gt 40 ] || fail "the header declares few functions"
nm -D --defined-only "$root/lib/libfemem.so.1" | awk '$2 == "T" && $3 ~ /@@/ { sub(/@@.*/, "", $3); print $3 }' | sort > "$folder/shared"
nm -g --defined-only "$root/lib/libfemem.a" | awk 'NF == 3 { print $3 }' | sort > "$folder/static"
diff "$folder/declared" "$folder/shared" >&2 || fail "the shared library's names"
diff "$folder/declared" "$folder/static" >&2 || fail "the static library's names"
objdump -p "$root/lib/libfemem.so.1" | grep -q 'SONAME *libfemem.so.1$' || fail "the soname"

# The version is the same everywhere; the manual page has each function, and no name that the header has not.
grep -qx "Version: $version" "$root/lib/pkgconfig/femem.pc" || fail "the version of femem.pc"
grep -qx "prefix=/usr" "$root/lib/pkgconfig/femem.pc" || fail "the prefix of femem.pc"
cat > "$folder/program.c" << 'END'
#include <femem.h>
#include <stdio.h>
#include <string.h>
int main(void) {
  femem *client = NULL;
  femem_error error = femem_open(&client, "/none/of/these", 7, NULL);
  printf("%s: %s\n", femem_version(), femem_error_text(error));
  return strcmp(femem_version(), FEMEM_VERSION) != 0 || error != FEMEM_UNREACHABLE;
}
END
cp "$folder/program.c" "$folder/program.cc"
due="$version: no server was reached"
flags="-Wall -Wextra -Wpedantic -Werror -I$root/include"
ran() { said=$(LD_LIBRARY_PATH="$root/lib" "$1") || fail "$1: status $?"; [ "$said" = "$due" ] || fail "$1: $said"; }
${CC:-cc} -std=c11 $flags -o "$folder/shared_c" "$folder/program.c" -L"$root/lib" -lfemem
${CC:-cc} -std=c11 $flags -o "$folder/static_c" "$folder/program.c" "$root/lib/libfemem.a"
ran "$folder/shared_c"
ran "$folder/static_c"
if command -v "${CXX:-c++}" > /dev/null; then
  ${CXX:-c++} -std=c++11 $flags -o "$folder/shared_cc" "$folder/program.cc" -L"$root/lib" -lfemem
  ran "$folder/shared_cc"
fi
head -n 1 libfemem.3 | grep -q "\"femem $version\"" || fail "the version of libfemem.3"
while read -r name; do grep -qw "$name" libfemem.3 || fail "libfemem.3 does not have $name"; done < "$folder/declared"
grep -ow 'femem_[a-z_]*\|FEMEM_[A-Z_]*' libfemem.3 | sort -u > "$folder/named"
while read -r name; do grep -qw "$name" femem.h || fail "femem.h does not have $name"; done < "$folder/named"
page=$root/share/man/man3/libfemem.3
while read -r name; do
  grep -q "^.fB.*\b$name(" "$page" || fail "libfemem.3 has no prototype of $name"
  [ "$(readlink "${page%/*}/$name.3")" = libfemem.3 ] || fail "$name.3 leads nowhere"
done < "$folder/declared"
if command -v man > /dev/null; then
  said=$(LC_ALL=C.UTF-8 MANWIDTH=120 man --warnings -l "$page" 2>&1 > /dev/null) || fail "man: $said"
  [ -z "$said" ] || fail "man: $said"
fi
echo "femem client, installed: $(wc -l < "$folder/declared") functions"
