#!/bin/sh
# shared.sh ARCHIVE: the libraries that are installed beside the proved archive, in target/lib: libspireyerba_util.a, and
# libspireyerba.so.N, made from the archive and the conveniences, N being the interface's number. What it shows is what the two
# headers declare, no name more or less.
set -eu
cd "$(dirname "$0")/.."
archive=$1
headers='include/spireyerba.h include/spireyerba_util.h'
interface=$(sed -n 's/^#define SPIREYERBA_INTERFACE //p' include/spireyerba_util.h)
library=libspireyerba.so.$interface
mkdir -p target/lib
cd target/lib

# shellcheck disable=SC2086 # two files
declared=$(cd ../.. && sed -n '/^static/!s/^[a-z].*[ *]\(spireyerba_[a-z_]*\)(.*/\1/p' $headers | sort)
{
    echo '{ global:'
    for name in $declared; do echo "$name;"; done
    echo 'local: *; };'
} >exports.map

cc=${CC:-cc}
# shellcheck disable=SC2086 # the flags are words
"$cc" ${CFLAGS:--O2} -Wall -Wextra -std=c99 -fPIC -I../../include -c ../../util/spireyerba_util.c -o spireyerba_util.o
rm -f libspireyerba_util.a
ar rcs libspireyerba_util.a spireyerba_util.o
# shellcheck disable=SC2046,SC2086 # a word for each name, and the flags are words
"$cc" ${LDFLAGS:-} -shared spireyerba_util.o $(for name in $declared; do echo "-Wl,-u,$name"; done) "../../$archive" \
    -Wl,-soname,"$library" -Wl,--version-script=exports.map -Wl,-Bsymbolic -Wl,--gc-sections -Wl,-z,defs -Wl,-z,relro -Wl,-z,now -s -o "$library"
ln -sf "$library" libspireyerba.so

shown=$(nm -D --defined-only "$library" | awk '{ print $3 }' | sort)
if [ "$shown" != "$declared" ]; then
    echo "$library: what it shows is not what the headers declare:" >&2
    printf '%s\n%s\n' "$shown" "$declared" | sort | uniq -u >&2
    rm -f "$library"
    exit 1
fi
