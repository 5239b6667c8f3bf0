#!/usr/bin/env bash
# install.sh: installs into an empty folder and uses what stands there as a new user would: README's program by pkg-config, static
# and shared, and by CMake; the manual pages; the completions; the Python package. Then takes it away. What needs a Debian package
# that is not installed is passed over, and said. The last line is `N passed, M failed`.
set -euo pipefail
cd "$(dirname "$0")/.."
folder=$(mktemp -d)
trap 'rm -rf "$folder"' EXIT
prefix=$folder/usr
export PKG_CONFIG_PATH=$prefix/lib/pkgconfig LD_LIBRARY_PATH=$prefix/lib
interface=$(sed -n 's/^#define SPIREYERBA_INTERFACE //p' include/spireyerba_util.h)
version=$(sed -n 's/^#define SPIREYERBA_VERSION "\(.*\)"/\1/p' include/spireyerba_util.h)
library=$prefix/lib/libspireyerba.so.$interface
passed=0
failed=0

# part COMMAND..: counts as one test.
part() {
    if "$@"; then
        passed=$((passed + 1))
    else
        echo "not so: $*"
        failed=$((failed + 1))
    fi
}

# with PROGRAM COMMAND..: a part that needs a program.
with() {
    local program=$1
    shift
    if command -v "$program" >/dev/null; then part "$@"; else echo "passed over, since there is no $program: $*"; fi
}

installs() {
    env -u LD_LIBRARY_PATH -u PKG_CONFIG_PATH make -s install PREFIX="$prefix" >"$folder/said" 2>&1 || { cat "$folder/said"; return 1; }
}

# The same files come under DESTDIR, and none of them names it.
stages() {
    DESTDIR=$folder/stage PREFIX=$prefix packaging/install.sh install &&
        diff <(cd "$prefix" && find . | sort) <(cd "$folder/stage$prefix" && find . | sort) &&
        ! grep -rqI "$folder/stage" "$folder/stage"
}

readme_program() {
    # shellcheck disable=SC2016 # the marks of README
    sed -n '/^```c$/,/^```$/{/^```/!p}' README.md >"$folder/list.c"
}

# prints PROGRAM: what README says.
prints() {
    "$1" | diff - <(sed -n 's/^    \(weight .*\)$/\1/p' README.md)
}

# declared HEADER..: the functions that the headers declare.
declared() {
    (cd "$prefix/include" && sed -n '/^static\|^typedef/!s/^[a-z].*[ *]\(spireyerba_[a-z_]*\)(.*/\1/p' "${@/%/.h}") | sort
}

# The shared libraries show what the headers declare and nothing else, under their names with the interface's number.
shows_declared_names() {
    diff <(nm -D --defined-only "$library" | awk '{ print $3 }' | sort) \
        <(declared spireyerba spireyerba_util) &&
        diff <(nm -D --defined-only "$prefix"/lib/libspireyerba_text.so.* | awk '{ print $3 }' | sort) <(declared spireyerba_text) &&
        readelf -d "$library" | grep "SONAME.*\[libspireyerba.so.$interface\]" >/dev/null
}

# The installed archive is the proved one, byte for byte.
has_proved_archive() {
    cmp target/staticlib/libspireyerba.a "$prefix/lib/libspireyerba.a"
}

by_pkg_config() {
    # shellcheck disable=SC2046 # flags are words
    gcc -std=c99 -Wall -Wextra -Werror "$folder/list.c" $(pkg-config --cflags --libs spireyerba) -o "$folder/shared" &&
        prints "$folder/shared" && ldd "$folder/shared" | grep "libspireyerba.so.$interface" >/dev/null
}

by_pkg_config_static() {
    # shellcheck disable=SC2046 # flags are words
    gcc -std=c99 -static "$folder/list.c" $(pkg-config --static --cflags --libs spireyerba) -o "$folder/static" &&
        prints "$folder/static"
}

by_cmake() {
    local project=$folder/project
    mkdir -p "$project"
    cp "$folder/list.c" "$project"
    cat >"$project/CMakeLists.txt" <<CMAKE
cmake_minimum_required(VERSION 3.13)
project(list C)
find_package(spireyerba $version REQUIRED)
add_executable(list list.c)
target_link_libraries(list spireyerba::spireyerba)
add_executable(list_static list.c)
target_link_libraries(list_static spireyerba::static)
CMAKE
    if ! { cmake -S "$project" -B "$project/build" -DCMAKE_PREFIX_PATH="$prefix" && cmake --build "$project/build"; } \
        >"$folder/log" 2>&1; then
        cat "$folder/log"
        return 1
    fi
    prints "$project/build/list" && prints "$project/build/list_static"
}

# A program that was compiled with the header of another interface finds it out when it runs.
finds_mismatch() {
    local answer
    mkdir -p "$folder/later"
    cp include/spireyerba.h "$folder/later"
    sed "s/\(define SPIREYERBA_INTERFACE\) .*/\1 99/" include/spireyerba_util.h >"$folder/later/spireyerba_util.h"
    cat >"$folder/version.c" <<'C'
#include "spireyerba_util.h"
int main(void) { return spireyerba_util_is_compatible() ? 3 : 4; }
C
    for answer in "3 $prefix/include" "4 $folder/later"; do
        gcc -I"${answer#* }" "$folder/version.c" -L"$prefix/lib" -lspireyerba -o "$folder/version" || return 1
        [ "$("$folder/version"; echo $?)" = "${answer%% *}" ] || return 1
    done
}

# Every page is shown without a warning, and has a line for each of its sections.
manual_is_read() {
    local page
    for page in "$prefix"/share/man/man*/*; do
        MANWIDTH=100 man --warnings=w -l "$page" >"$folder/page" 2>"$folder/log" || return 1
        [ ! -s "$folder/log" ] || { cat "$folder/log"; return 1; }
        grep -q '^NAME$' "$folder/page" && grep -q '^SEE ALSO$' "$folder/page" || return 1
    done
    [ "$(find "$prefix/share/man" -name 'spireyerba-*.1' | wc -l)" -ge 15 ]
}

# Bash completes a command, an option of it and the help's words.
bash_completes() {
    # shellcheck source=/dev/null
    source "$prefix/share/bash-completion/completions/spireyerba"
    # shellcheck disable=SC2317 # outside of a completion bash has none
    compopt() { :; }
    completes "spireyerba lis" "list" && completes "spireyerba list --tr" "--tree" && completes "spireyerba help tex" "texts"
}

# completes LINE WORD: the last word of a line becomes this one, and no other.
completes() {
    read -ra COMP_WORDS <<<"$1"
    # shellcheck disable=SC2034 # bash's own
    COMP_CWORD=$((${#COMP_WORDS[@]} - 1))
    _spireyerba
    [ "${COMPREPLY[*]}" = "$2" ]
}

command_runs() {
    "$prefix/bin/spireyerba" list examples/doors/grammar.txt examples/doors/utterance.txt -n 3 |
        diff - <(sed -n 's/^    \([123]  [0-9]* .*\)$/\1/p' README.md | head -3)
}

# A Python prompt that knows nothing of the repository.
python_lists() {
    local python_folder
    python_folder=$(dirname "$(find "$prefix" -name spireyerba -path '*python*')")
    (cd "$folder" && env -u LD_LIBRARY_PATH PYTHONPATH="$python_folder" python3 -c '
from spireyerba import Grammar
doors = Grammar.from_text("Entry -> \"door\" Number [1]\nNumber -> \"four\" | \"five\" [2]")
for reading in doors.list(doors.read("door 3; four 9 | five 5")):
    print("%d: %s" % (reading.weight, reading.sentence))') | diff - <(printf '11: door five\n13: door four\n')
}

# The lines of README's section "Install" behind the first, copied, in a shell that has nothing set but what `make install` said.
readme_lines() {
    sed -n 's/^for it to be found, set: //p' "$folder/said" >"$folder/lines"
    sed -n '/^## Install$/,/^## From C$/s/^    //p' README.md | tail -n +2 >>"$folder/lines"
    [ "$(wc -l <"$folder/lines")" -ge 5 ] || return 1
    mkdir -p "$folder/copied" && cp -r README.md examples "$folder/copied" || return 1
    (cd "$folder/copied" && env -u LD_LIBRARY_PATH -u PKG_CONFIG_PATH MANPAGER=cat bash -e "$folder/lines") >"$folder/log" 2>&1 &&
        grep -q '^SEE ALSO$' "$folder/log" && grep -q '^weight 13: door four$' "$folder/log" && grep -q "^('door', .*)$" "$folder/log" ||
        { cat "$folder/log" && return 1; }
}

# What is said to be set can be copied where a path has a blank and a quote in it.
odd_path_is_copied() {
    local odd="$folder/it's here"
    env -u LD_LIBRARY_PATH -u PKG_CONFIG_PATH PREFIX="$odd" packaging/install.sh install >"$folder/odd" || return 1
    sed -n 's/^for it to be found, set: //p' "$folder/odd" >"$folder/lines"
    # shellcheck disable=SC2016 # the shell that reads the lines knows them
    printf '%s\n' 'printf "%s\n" "${PATH%%:*}" "$LD_LIBRARY_PATH"' 'command -v spireyerba' >>"$folder/lines"
    env -u LD_LIBRARY_PATH -u PKG_CONFIG_PATH sh -e "$folder/lines" | diff - <(printf '%s\n' "$odd/bin" "$odd/lib" "$odd/bin/spireyerba")
}

# Nothing is left but folders that others may use.
is_taken_away() {
    make -s uninstall PREFIX="$prefix" >"$folder/log" 2>&1 && [ -z "$(find "$prefix" ! -type d)" ] &&
        [ -z "$(find "$prefix" -name 'spireyerba*')" ]
}

part installs
part stages
part readme_program
part has_proved_archive
part shows_declared_names
with pkg-config by_pkg_config
with pkg-config by_pkg_config_static
with cmake by_cmake
part finds_mismatch
part command_runs
with man manual_is_read
part bash_completes
part bash -n "$prefix/share/bash-completion/completions/spireyerba"
with zsh zsh -n "$prefix/share/zsh/site-functions/_spireyerba"
with fish fish -n "$prefix/share/fish/vendor_completions.d/spireyerba.fish"
with python3 python_lists
if command -v man >/dev/null && command -v python3 >/dev/null; then
    with pkg-config readme_lines
else
    echo 'passed over, since there is no man or no python3: readme_lines'
fi
part odd_path_is_copied
part is_taken_away
echo "$passed passed, $failed failed"
[ "$failed" -eq 0 ]
