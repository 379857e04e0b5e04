#!/bin/sh
# install.sh: what `make install` puts is enough to build a program and to read about it; `make uninstall` removes it.
set -u
top=$(realpath "$(dirname "$0")/../..")
to=$(mktemp -d) || exit 2
trap 'rm -rf "$to"' EXIT

fault() {
    echo "install: $1" >&2
    exit 1
}

make -s -C "$top" install DESTDIR="$to" PREFIX=/opt/rig || fault 'make install fails'
root=$to/opt/rig
for file in bin/mortarsedge include/mortarsedge.h lib/libmortarsedge.a lib/pkgconfig/mortarsedge.pc \
    share/man/man1/mortarsedge.1 share/man/man3/mortarsedge.3 share/man/man5/plan.5; do
    [ -f "$root/$file" ] || fault "$file is missing"
done
[ "$(find "$root" -type f | wc -l)" -eq 7 ] || fault 'more than seven files'
"$root/bin/mortarsedge" check 2 "$top/examples/worked/plan.txt" > /dev/null || fault 'the command fails'
grep -qx 'libdir=/opt/rig/lib' "$root/lib/pkgconfig/mortarsedge.pc" || fault 'the pkg-config file has another prefix'

# A program of three lines, built with the flags of pkg-config where there is one.
cat > "$to/program.c" <<'END'
#include <mortarsedge.h>
int main(void) { return (int)mortarsedge_plan_check(7, 0, 0) - 1; }
END
flags="-I$root/include -L$root/lib -lmortarsedge"
if command -v pkg-config > /dev/null; then
    flags=$(PKG_CONFIG_PATH=$root/lib/pkgconfig PKG_CONFIG_SYSROOT_DIR=$to pkg-config --cflags --libs mortarsedge) || fault pkg-config
fi
# shellcheck disable=SC2086
${CC:-cc} -std=c11 -o "$to/program" "$to/program.c" $flags || fault 'a program is not built'
"$to/program" || fault 'the program fails'

# Manual pages without warnings, where there is groff.
if command -v groff > /dev/null; then
    for page in "$root"/share/man/man*/*; do
        warnings=$(groff -man -Tascii -ww -z "$page" 2>&1)
        [ -z "$warnings" ] || fault "$page: $warnings"
    done
fi

make -s -C "$top" uninstall DESTDIR="$to" PREFIX=/opt/rig || fault 'make uninstall fails'
[ -z "$(find "$root" -type f)" ] || fault "left: $(find "$root" -type f)"
echo "install: seven files, a program built with them, all removed again"
