#!/bin/sh
# install.sh install|uninstall: puts what was built under PREFIX, or takes it away again. One list serves both.
#
#   PREFIX      /usr/local unless given
#   DESTDIR     put before every path that is written to, and in no file
#   BINDIR, LIBDIR, INCLUDEDIR, DATADIR, PYTHONDIR   where else something should stand
set -eu
cd "$(dirname "$0")/.."
action=$1
PREFIX=${PREFIX:-/usr/local}
DESTDIR=${DESTDIR:-}
BINDIR=${BINDIR:-$PREFIX/bin}
LIBDIR=${LIBDIR:-$PREFIX/lib}
INCLUDEDIR=${INCLUDEDIR:-$PREFIX/include}
DATADIR=${DATADIR:-$PREFIX/share}
version=$(sed -n 's/^#define SPIREYERBA_VERSION "\(.*\)"/\1/p' include/spireyerba_util.h)
interface=$(sed -n 's/^#define SPIREYERBA_INTERFACE //p' include/spireyerba_util.h)
text_interface=$(sed -n 's/^#define SPIREYERBA_TEXT_INTERFACE //p' include/spireyerba_text.h)
command=target/bin/spireyerba
made=$(mktemp)
trap 'rm -f "$made"' EXIT

# The folder of that prefix in which the Python that is found looks for packages, or would.
python_folder() {
    python3 - "$PREFIX" <<'PYTHON'
import site, sys
prefix = sys.argv[1].rstrip("/") + "/"
own = "%slib/python%d.%d/site-packages" % (prefix, *sys.version_info[:2])
print(next((folder for folder in site.getsitepackages() if folder.startswith(prefix)), own))
PYTHON
}
PYTHONDIR=${PYTHONDIR:-$(if command -v python3 >/dev/null; then python_folder; fi)}

# put MODE SOURCE PATH: a file that is installed, or taken away.
put() {
    case $action in
        install) install -D -m "$1" "$2" "$DESTDIR$3" ;;
        uninstall) take_away "$DESTDIR$3" ;;
    esac
}

# take_away PATH: and with it its folder, if that is of this package alone.
take_away() {
    rm -f "$1"
    case $(dirname "$1") in */spireyerba) rmdir --ignore-fail-on-non-empty "$(dirname "$1")" 2>/dev/null || true ;; esac
}

# filled SOURCE PATH: a file whose words between @ are filled in.
filled() {
    sed -e "s|@PREFIX@|$PREFIX|" -e "s|@LIBDIR@|$LIBDIR|" -e "s|@INCLUDEDIR@|$INCLUDEDIR|" -e "s|@VERSION@|$version|" \
        -e "s|@INTERFACE@|$interface|" "$1" >"$made"
    put 644 "$made" "$2"
}

# printed PATH WORDS..: what the command prints.
printed() {
    path=$1
    shift
    if [ "$action" = install ]; then "$command" help "$@" >"$made"; fi
    put 644 "$made" "$path"
}

# link NAME PATH: a link to a file beside it.
link() {
    case $action in
        install) ln -sf "$1" "$DESTDIR$2" ;;
        uninstall) take_away "$DESTDIR$2" ;;
    esac
}

libraries() {
    put 644 target/staticlib/libspireyerba.a "$LIBDIR/libspireyerba.a"
    put 644 target/lib/libspireyerba_util.a "$LIBDIR/libspireyerba_util.a"
    put 755 "target/lib/libspireyerba.so.$interface" "$LIBDIR/libspireyerba.so.$interface"
    link "libspireyerba.so.$interface" "$LIBDIR/libspireyerba.so"
    put 755 "target/lib/libspireyerba_text.so.$text_interface" "$LIBDIR/libspireyerba_text.so.$text_interface"
    link "libspireyerba_text.so.$text_interface" "$LIBDIR/libspireyerba_text.so"
    put 644 include/spireyerba.h "$INCLUDEDIR/spireyerba.h"
    put 644 include/spireyerba_util.h "$INCLUDEDIR/spireyerba_util.h"
    put 644 include/spireyerba_text.h "$INCLUDEDIR/spireyerba_text.h"
    filled packaging/spireyerba.pc.in "$LIBDIR/pkgconfig/spireyerba.pc"
    filled packaging/spireyerba-config.cmake.in "$LIBDIR/cmake/spireyerba/spireyerba-config.cmake"
    filled packaging/spireyerba-config-version.cmake.in "$LIBDIR/cmake/spireyerba/spireyerba-config-version.cmake"
}

the_command() {
    put 755 "$command" "$BINDIR/spireyerba"
    for page in $("$command" help --manual); do
        printed "$DATADIR/man/man${page##*.}/$page" --manual "$page"
    done
    printed "$DATADIR/bash-completion/completions/spireyerba" --completions bash
    printed "$DATADIR/zsh/site-functions/_spireyerba" --completions zsh
    printed "$DATADIR/fish/vendor_completions.d/spireyerba.fish" --completions fish
}

# The Python package, which is told where the libraries are.
python_package() {
    for file in python/spireyerba/*.py python/spireyerba/py.typed; do
        put 644 "$file" "$PYTHONDIR/spireyerba/${file##*/}"
    done
    printf '"""Where the libraries were installed."""\n\nLIBDIR = "%s"\n' "$LIBDIR" >"$made"
    if [ "$action" = uninstall ]; then rm -rf "$DESTDIR$PYTHONDIR/spireyerba/__pycache__"; fi
    put 644 "$made" "$PYTHONDIR/spireyerba/_installed.py"
}

# quoted TEXT: the text as one word of a shell.
quoted() {
    printf "'%s'" "$(printf '%s' "$1" | sed "s/'/'\\\\''/g")"
}

# unless_in LIST FOLDER NAME [VALUE [REST]]: sets the name to the value, or else to the folder, and to the rest, which the shell
# reads; unless the folder stands in the list, whose colons part folders.
unless_in() {
    case ":$1:" in *":$2:"*) ;; *) printf ' %s=%s%s' "$3" "$(quoted "${4:-$2}")" "${5:-}" ;; esac
}

# What has to be set for what was installed to be found from here.
settings() {
    # shellcheck disable=SC2016 # it is for the shell into which it is copied
    unless_in "$PATH" "$BINDIR" PATH "$BINDIR" '":$PATH"'
    unless_in "$(manpath -q 2>/dev/null || true)" "$DATADIR/man" MANPATH "$DATADIR/man:"
    unless_in "$(ldconfig -N -v 2>/dev/null | sed -n 's|^\(/[^:]*\):.*|\1|p' | tr '\n' :)${LD_LIBRARY_PATH:-}" "$LIBDIR" \
        LD_LIBRARY_PATH
    if command -v pkg-config >/dev/null; then
        unless_in "$(pkg-config --variable pc_path pkg-config):${PKG_CONFIG_PATH:-}" "$LIBDIR/pkgconfig" PKG_CONFIG_PATH
    fi
    if [ -n "$PYTHONDIR" ]; then
        unless_in "$(python3 -c 'import sys; print(*sys.path, sep=":")')" "$PYTHONDIR" PYTHONPATH
    fi
}

libraries
the_command
# The loader looks into folders that it knows by a list, which is made anew.
if [ -z "$DESTDIR" ] && [ "$(id -u)" = 0 ] && command -v ldconfig >/dev/null; then ldconfig || true; fi
if [ -n "$PYTHONDIR" ]; then python_package; else echo 'there is no python3: the Python package is left out'; fi
if [ "$action" = install ] && [ -z "$DESTDIR" ]; then
    PATH=$PATH:/usr/sbin:/sbin
    needed=$(settings)
    if [ -n "$needed" ]; then echo "for it to be found, set: export$needed"; fi
fi
