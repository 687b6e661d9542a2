#!/bin/sh
# Installs below PREFIX (of DESTDIR), or takes away what it installed: install.sh install|uninstall programs|library [TARGET]
# The library of another kind of processor goes to lib/KIND of PREFIX, compiled by KIND-gcc. A relative PREFIX is below this folder.
# CC, AR, CFLAGS, CPPFLAGS and LDFLAGS are respected, as those of a cross build are; CC may have words behind the compiler's name.
set -eu
PREFIX=${PREFIX:-/usr/local}
case $PREFIX in /*) ;; *) PREFIX=$PWD/$PREFIX ;; esac
ROOT=${DESTDIR:-}$PREFIX
TARGET=${3:-x86_64-unknown-linux-gnu}
KIND=${TARGET%%-*}-linux-gnu
LIB=lib
if [ "$TARGET" != "$(uname -m)-unknown-linux-gnu" ]; then
    LIB=lib/$KIND
    CC=${CC:-$KIND-gcc}
    AR=${AR:-$KIND-ar}
fi
VERSION=$(sed -n 's/^Version: //p' include/oca.pc.in)
MAJOR=${VERSION%%.*}
work=$(mktemp -d)
trap 'rm -rf "$work"' EXIT

put() { # put MODE FILE FOLDER: installs the file, or takes it away
    if [ "$action" = uninstall ]; then rm -f "$ROOT/$3/${2##*/}"; return; fi
    install -d "$ROOT/$3"
    install -m "$1" "$2" "$ROOT/$3"
}

put_link() { # put_link FILE NAME: a name in the library's folder for a file that lies there
    if [ "$action" = uninstall ]; then rm -f "$ROOT/$LIB/$2"; else ln -sf "$1" "$ROOT/$LIB/$2"; fi
}

put_text() { # put_text FILE FOLDER NAME, with what stands for the folders
    PREFIX=$PREFIX LIB=$LIB VERSION=$VERSION awk '
        function as_it_is(text) { gsub(/[\\&]/, "\\\\&", text); return text }
        { gsub(/@PREFIX@/, as_it_is(ENVIRON["PREFIX"])); gsub(/@LIB@/, as_it_is(ENVIRON["LIB"]))
          gsub(/@VERSION@/, as_it_is(ENVIRON["VERSION"])); print }' "$1" > "$work/$3"
    put 644 "$work/$3" "$2"
}

put_programs() {
    for name in ocadev ocactl ocapanel; do
        put 755 "bin/$name" bin
        put 644 "man/$name.1" share/man/man1
    done
    for name in ocadev ocapanel; do put_text "systemd/$name.service.in" lib/systemd/system "$name.service"; done
}

# The static library with all C of c/ (a panel, a device's loop and what it needs, a heap over malloc), the one without the heap, and
# the shared one, whose names all begin with `oca_`; and the manual pages.
make_library() {
    parts="panel kept objects store socket serve close"
    for name in $parts malloc; do ${CC:-cc} ${CFLAGS--O2} ${CPPFLAGS-} -fPIC -Wall -Wextra -Iinclude -c -o "$work/$name.o" "c/$name.c"; done
    cp "${LIBRARY:-crates/oca_c/out/$TARGET/liboca_c.a}" "$work/liboca_c.a"
    for name in $parts; do ${AR:-ar} rs "$work/liboca_c.a" "$work/$name.o" 2> /dev/null; done
    cp "$work/liboca_c.a" "$work/liboca.a"
    ${AR:-ar} rs "$work/liboca.a" "$work/malloc.o" 2> /dev/null
    ${CC:-cc} ${CFLAGS--O2} ${LDFLAGS-} -shared -o "$work/liboca.so.$VERSION" -Wl,-soname,liboca.so.$MAJOR \
        -Wl,--version-script=include/oca.map -Wl,-z,relro,-z,now -Wl,--whole-archive "$work/liboca.a" -Wl,--no-whole-archive -Wl,-z,defs
    python3 gate/reference.py "$work/man3" > "$work/pages"
}

put_library() {
    if [ "$action" = install ]; then make_library; else rm -f "$ROOT"/share/man/man3/oca_*.3; fi
    put 644 include/oca.h include
    for file in liboca_c.a liboca.a; do put 644 "$work/$file" "$LIB"; done
    put 755 "$work/liboca.so.$VERSION" "$LIB"
    put_link "liboca.so.$VERSION" "liboca.so.$MAJOR"
    put_link "liboca.so.$MAJOR" liboca.so
    for page in "$work"/man3/*.3; do put 644 "$page" share/man/man3; done
    put_text include/oca.pc.in "$LIB/pkgconfig" oca.pc
    for name in oca-config oca-config-version; do put_text "include/$name.cmake.in" "$LIB/cmake/oca" "$name.cmake"; done
    if [ "$action" = uninstall ] && [ -d "$ROOT/$LIB/cmake/oca" ]; then rmdir --ignore-fail-on-non-empty "$ROOT/$LIB/cmake/oca"; fi
}

action=$1
case $1-$2 in
install-programs | install-library | uninstall-programs | uninstall-library) "put_$2" ;;
*) sed -n 2,4p "$0" >&2; exit 2 ;;
esac
