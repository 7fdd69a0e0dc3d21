#!/usr/bin/env bash
# Builds the library for C, installs it, and builds and runs programs with it.
#
# What is installed is libnvmed.a, nvmed.h and nvmed.pc. The archive is one object: the library's archive, and what that needs of the toolchain's own
# archive for memory. It links with the C library alone, and its only global names are the functions that nvmed.h declares.
#
# The programs are built against a copy that is installed in a folder of this run, with the words of pkg-config: host.c and hosting.c of examples/, c.c and
# serve.c of bench/wrong/, bench/shares.c and bench/messages.c in C11 and as C++17, examples/threads.c and bench/racing.c in C11, examples/host.cc in C++17,
# examples/host.rs in Rust, with warnings as errors. A check is one of these programs in one of the languages, run once: what it prints must be its .expected file, and under
# valgrind there must be no error and no leak. Further checks are the C programs with sanitizers of addresses and of undefined behaviour, threads.c with
# ThreadSanitizer, too (the races of racing.c are wanted), examples/host.c with the C library alone beside functions that have names of the toolchain's
# archive, two of the installation, and those of the library without proofs: that it is installed, says what it is, and runs two examples. Each check that
# fails is named, and what could not be run on this machine is named as left out: without clang, cc and c++ are taken, and without rustc, valgrind or
# sanitizers their checks are left out. Without pkg-config the copy is named by its paths. The last line is 'N passed, M failed', and the status is 0 where
# M is 0.
#
# The library without proofs (bench/tried.py) is built in a minute or so, for first steps. It has names of its own, libnvmed-tried.a and nvmed-tried.pc; the
# linker of GNU warns of it; and it has a mark by which a program's build can tell it, whatever its name.
#
#     bench/c.sh                     builds the library by rt lib, which proves what is not proved yet, and does all of the above
#     bench/c.sh install PREFIX      installs it below PREFIX, or below DESTDIR and PREFIX where DESTDIR is set, and runs nothing
#     bench/c.sh try install PREFIX  installs the library without proofs
#     bench/c.sh try                 does the checks with the library without proofs
#     bench/c.sh time                prints how long nvmed_work takes, over a drive of the host's (bench/serving.c) and of a simulation (bench/work.c), and
#                                    a plain loop in C that proves nothing (bench/plain.c), and runs nothing else
#     LIBRARY=libnv_c.a bench/c.sh   takes a library that is built already; so with install and time
set -euo pipefail
export LC_ALL=C

self=$(readlink -f "$0")
top=$(dirname "$(dirname "$self")")
header=$top/include/nvmed.h
# the library's name, for the linker and for pkg-config, and what it is
product=nvmed
description='A proved NVMe mediator, as a library'
# of one run of a program, in seconds; under valgrind they take some ten times as long as without it
limit=120
warnings=(-Wall -Wextra -Werror -O1 -gdwarf-4)
sanitizers=(-fsanitize=address -fsanitize=undefined -fno-sanitize-recover=all)
race_sanitizer=(-fsanitize=thread)
passed=0
failed=0

say() {
    echo "the library for C: $1"
}

stop() {
    say "$1" >&2
    exit 1
}

# what an archive without proofs has in it, and the linker's warning
mark='nvmed-tried: built without proofs'
warning='this library was built without its proofs: use it for trials alone'
tried=
if [[ ${1:-} == try ]]; then
    tried=yes
    product=nvmed-tried
    description='An NVMe mediator, as a library: built without its proofs, for trials alone'
    shift
fi
# what is installed
files=("lib/lib$product.a" include/nvmed.h "lib/pkgconfig/$product.pc")

case "$#:${1:-}" in
    0: | 1:time | 2:install) ;;
    *)
        sed -n 's/^#     //p' "$self" >&2
        exit 2
        ;;
esac
if [[ ${1:-} == install ]]; then
    prefix=$2
    [[ -n $prefix ]] || stop "the prefix is empty"
    [[ $prefix == /* ]] || prefix=$PWD/$prefix
    prefix=${prefix%/}
    [[ $prefix != *[[:space:]\"\'\\\$\#]* ]] || stop "$product.pc cannot name a prefix with spaces, quotes, a backslash, \$ or #: $prefix"
fi

command -v rt > /dev/null || stop "the toolchain's command rt is not on the path"
kit=$(dirname "$(rt doc)")
memory=$kit/c/liblibc_c.a

library=${LIBRARY:-}
if [[ -n $tried ]]; then
    "$top/bench/tried.py"
    library=$top/crates/nv_c/out/libnv_c.tried.a
elif [[ -z $library ]]; then
    (cd "$top/crates/nv_c" && rt lib)
    library=$top/crates/nv_c/out/libnv_c.a
fi
for archive in "$library" "$memory"; do
    [[ -f $archive && -r $archive ]] || stop "there is no archive $archive"
done

room=$(mktemp -d)
# files of an installation that have not got their names yet
unnamed=()
trap 'rm -rf "$room" "${unnamed[@]}"' EXIT

# The first of these commands that is there.
tool() {
    local it
    for it in "$@"; do
        ! command -v "$it" || return 0
    done
    stop "none of these commands is there: $*"
}

# The global names that an object or an archive defines, in their order.
names_in() {
    "$(tool nm llvm-nm)" -g --defined-only -P "$1" | sed -nE 's/^([^ ]+) [A-Z] .*/\1/p' | sort
}

# Whether an archive has the mark of one without proofs.
is_marked() {
    grep -qF "$mark" "$1"
}

# Lets the linker warn of an object without proofs: the program that copies objects, and the object.
warn_of() {
    printf '%s\0' "$warning" > "$room/warning"
    "$1" --add-section .gnu.warning.nvmed_raw_new="$room/warning" --add-section .gnu.warning.nvmed_raw_serve="$room/warning" "$2"
}

# Makes the library's archive in the room.
make_archive() {
    local declared call wanted=() linker copier archiver
    if [[ -n $tried ]]; then
        is_marked "$library" || stop "$library has no mark that says that it was built without proofs"
    elif is_marked "$library"; then
        stop "$library was built without proofs: 'bench/c.sh try install PREFIX' installs it"
    fi
    linker=$(tool ld ld.lld)
    copier=$(tool objcopy llvm-objcopy)
    archiver=$(tool ar llvm-ar)
    declared=$(sed -nE 's/^uint32_t (nvmed_raw_[a-z0-9_]+)\(.*/\1/p' "$header" | sort)
    for call in $declared; do
        wanted+=(-u "$call")
    done
    "$linker" -m elf_x86_64 -r -o "$room/nvmed.o" "${wanted[@]}" "$library" "$memory" || stop "$library was not made one object"
    "$copier" --wildcard --keep-global-symbol='nvmed_raw_*' "$room/nvmed.o" || stop "the names of $library were not made local"
    names_in "$room/nvmed.o" > "$room/names"
    diff <(echo "$declared") "$room/names" >&2 || stop "$library has not the functions that nvmed.h declares: < is not there, > is not declared"
    [[ -z $tried ]] || warn_of "$copier" "$room/nvmed.o" || stop "the library without proofs got no warning"
    rm -f "$room/lib$product.a"
    "$archiver" rcsD "$room/lib$product.a" "$room/nvmed.o" || stop "lib$product.a was not made"
}

# A number of the interface's version: MAJOR or MINOR.
version() {
    local number
    number=$(sed -nE "s/^#define NVMED_VERSION_$1 ([0-9]+)$/\1/p" "$header")
    [[ -n $number ]] || stop "nvmed.h has no NVMED_VERSION_$1"
    echo "$number"
}

# Installs the library below the prefix. Each file is written under another name first: they get their own where all of them are there.
install_library() {
    local root=${DESTDIR:-}$prefix file major minor
    major=$(version MAJOR)
    minor=$(version MINOR)
    make_archive
    cp "$header" "$room/nvmed.h"
    cat > "$room/$product.pc" << END
prefix=$prefix
includedir=\${prefix}/include
libdir=\${prefix}/lib

Name: $product
Description: $description
Version: $major.$minor
Cflags: -I\${includedir}
Libs: -L\${libdir} -l$product
END
    for file in "${files[@]}"; do
        [[ ! -d $root/$file ]] || stop "nothing was installed: $root/$file is a folder"
    done
    mkdir -p "$root/lib/pkgconfig" "$root/include" || stop "nothing was installed: a folder was not made"
    for file in "${files[@]}"; do
        unnamed+=("$root/$file.$$")
        install -m 644 "$room/${file##*/}" "$root/$file.$$" || stop "nothing was installed: $root/$file was not written"
    done
    for file in "${files[@]}"; do
        mv -fT "$root/$file.$$" "$root/$file" || stop "$root/$file was not replaced: install again"
    done
    unnamed=()
    say "version $major.$minor${tried:+, built without its proofs,} is installed below $root: ${files[*]}"
}

if [[ ${1:-} == install ]]; then
    install_library
    exit
fi

# The compiler of a language, c, cxx or rust: of C and C++ clang, or else what the system has.
compiler() {
    case $1 in
        c) command -v clang || command -v cc ;;
        cxx) command -v clang++ || command -v c++ ;;
        rust) command -v rustc ;;
    esac
}

# Builds a program against the copy that is installed: its file, the language, the program, and further words for the compiler.
build() {
    local language=(-std=c11)
    if [[ $2 == rust ]]; then
        rustc --edition 2021 -O -D warnings "$1" "${libs[@]}" -o "$3"
        return
    fi
    [[ $2 == c ]] || language=(-x c++ -std=c++17)
    "$(compiler "$2")" "${language[@]}" "${warnings[@]}" "${flags[@]}" "$1" -x none "${libs[@]}" "${@:4}" -o "$3"
}

# Counts a check, and names it where it failed: its name, and the command that it is.
check() {
    local name=$1
    shift
    if "$@"; then
        passed=$((passed + 1))
    else
        failed=$((failed + 1))
        say "FAILED: $name"
    fi
}

# Whether a program prints what it must: the file of that, and the words that run the program.
prints() {
    local status=0
    timeout "$limit" "${@:2}" > "$room/out" || status=$?
    diff "$1" "$room/out" && [[ $status == 0 ]]
}

# The words for a program that would take too long under valgrind.
declare -A short=([bench/racing.c]=short)

# The checks of a program in a language: its file, the file that has what it must print, the language, and further words for the compiler. Valgrind runs
# one thread at a time; all get their turns.
check_program() {
    local program=$room/${1##*/}-$3 valgrind=(valgrind --quiet --fair-sched=yes --leak-check=full --show-leak-kinds=all --error-exitcode=9)
    # what Rust's own runtime keeps until the end is no leak
    [[ $3 != rust ]] || valgrind+=(--show-leak-kinds=definite --errors-for-leak-kinds=definite)
    if ! build "$top/$1" "$3" "$program" "${@:4}"; then
        failed=$((failed + 1))
        say "FAILED: $1 was not built by the compiler of $3"
        return
    fi
    check "$1, built by the compiler of $3" prints "$top/$2" "$program"
    if command -v valgrind > /dev/null; then
        check "$1, built by the compiler of $3, under valgrind" prints "$top/$2" "${valgrind[@]}" "$program" ${short[$1]:+"${short[$1]}"}
    fi
}

# Prints the first compiler of C that builds programs with these sanitizers, if they run here.
sanitizing() {
    local it
    for it in clang gcc cc; do
        command -v "$it" > /dev/null || continue
        echo 'int main(void) { return 0; }' | "$it" -x c - "$@" -o "$room/empty" 2> /dev/null || continue
        if "$room/empty" 2> /dev/null; then
            echo "$it"
            return
        fi
    done
}

# Whether a program in C prints what it must with sanitizers: its file, the file that has what it must print, the compiler, and the words for it. What
# there is no memory for is refused, as by the C library; leaks are for valgrind.
sanitized() {
    "$3" -std=c11 "${warnings[@]}" "${@:4}" "${flags[@]}" "$top/$1" "${libs[@]}" -o "$room/sanitized" || return 1
    ASAN_OPTIONS=allocator_may_return_null=1:detect_leaks=0 prints "$top/$2" "$room/sanitized"
}

# Whether examples/host.c runs with the C library alone, in a program that has functions of its own by the names in the toolchain's archive.
is_alone() {
    names_in "$memory" | sed 's/.*/void &(void); void &(void) { __builtin_trap(); }/' > "$room/names.c"
    [[ -s $room/names.c ]] || return 1
    "$(compiler c)" -std=c11 "${warnings[@]}" -c "$room/names.c" -o "$room/names.o" || return 1
    build "$top/examples/host.c" c "$room/alone" "$room/names.o" -nodefaultlibs -lc || return 1
    prints "$top/examples/host.expected" "$room/alone"
}

# Installs below a prefix, in a folder of its own or none (DESTDIR), and reports whether all is there then, with this prefix in it, and nothing else.
installs() {
    LIBRARY=$library DESTDIR=$1 "$self" ${tried:+try} install "$2" > /dev/null || return 1
    diff <(printf '%s\n' "${files[@]}" | sort) <(cd "$1$2" && find . ! -type d | sed 's,^\./,,' | sort) || return 1
    grep -qFx "prefix=$2" "$1$2/lib/pkgconfig/$product.pc"
}

# Whether the library without proofs is installed beside the proved one, and which of the two has the mark.
tried_is_installed() {
    "$self" try install "$copy" > /dev/null || return 1
    is_marked "$copy/lib/libnvmed-tried.a" && ! is_marked "$copy/lib/libnvmed.a"
}

# Whether an example prints what it must with the library without proofs, and the linker warns of that, where it is GNU's.
tried_prints() {
    local language=(-std=c11) words
    words=$("$(compiler c)" "${language[@]}" "${warnings[@]}" "${flags[@]}" "$top/examples/$1.c" "-L$copy/lib" -lnvmed-tried -o "$room/tried" 2>&1) || {
        echo "$words"
        return 1
    }
    [[ $words == *"$warning"* ]] || ! "$(compiler c)" -Wl,--version 2> /dev/null | grep -q '^GNU ld' || return 1
    prints "$top/examples/$1.expected" "$room/tried"
}

copy=$room/installed
check "the installation" installs "" "$copy"
if [[ $failed != 0 ]]; then
    echo "$passed passed, $failed failed"
    exit 1
fi
flags=("-I$copy/include")
libs=("-L$copy/lib" "-l$product")
if command -v pkg-config > /dev/null; then
    unset PKG_CONFIG_SYSROOT_DIR
    export PKG_CONFIG_PATH=$copy/lib/pkgconfig
    read -ra flags < <(pkg-config --cflags "$product")
    read -ra libs < <(pkg-config --libs "$product")
else
    say "there is no pkg-config: the copy that is installed is named by its paths"
fi

if [[ ${1:-} == time ]]; then
    warnings+=(-O2)
    for program in serving plain work; do
        build "$top/bench/$program.c" c "$room/$program"
        "$room/$program"
    done
    exit
fi

check "the installation with DESTDIR" installs "$room/staged" /opt/nvmed
command -v clang > /dev/null || say "there is no clang: cc is taken in its place"
command -v clang++ > /dev/null || say "there is no clang++: c++ is taken in its place"
command -v valgrind > /dev/null || say "there is no valgrind: left out are the checks for bad accesses and leaks"
for language in c cxx rust; do
    if ! compiler "$language" > /dev/null; then
        say "there is no compiler of $language: left out is all that is built by it"
        continue
    fi
    case $language in
        c | cxx)
            check_program examples/host.c examples/host.expected "$language"
            check_program examples/hosting.c examples/hosting.expected "$language"
            check_program bench/wrong/c.c bench/wrong/c.expected "$language"
            check_program bench/wrong/serve.c bench/wrong/serve.expected "$language"
            check_program bench/shares.c bench/shares.expected "$language"
            check_program bench/messages.c bench/messages.expected "$language"
            ;;&
        c)
            check_program examples/threads.c examples/threads.expected c -pthread
            check_program bench/racing.c bench/racing.expected c -pthread
            check "examples/host.c with the C library alone" is_alone
            ;;
        cxx) check_program examples/host.cc examples/host.cc.expected cxx ;;
        rust) check_program examples/host.rs examples/host.rs.expected rust ;;
    esac
done
it=$(sanitizing "${sanitizers[@]}")
if [[ -n $it ]]; then
    check "examples/host.c with sanitizers" sanitized examples/host.c examples/host.expected "$it" "${sanitizers[@]}"
    check "examples/hosting.c with sanitizers" sanitized examples/hosting.c examples/hosting.expected "$it" "${sanitizers[@]}"
    check "examples/threads.c with sanitizers" sanitized examples/threads.c examples/threads.expected "$it" "${sanitizers[@]}" -pthread
    check "bench/wrong/c.c with sanitizers" sanitized bench/wrong/c.c bench/wrong/c.expected "$it" "${sanitizers[@]}"
    check "bench/wrong/serve.c with sanitizers" sanitized bench/wrong/serve.c bench/wrong/serve.expected "$it" "${sanitizers[@]}"
    check "bench/shares.c with sanitizers" sanitized bench/shares.c bench/shares.expected "$it" "${sanitizers[@]}"
    check "bench/messages.c with sanitizers" sanitized bench/messages.c bench/messages.expected "$it" "${sanitizers[@]}"
    check "bench/racing.c with sanitizers" sanitized bench/racing.c bench/racing.expected "$it" "${sanitizers[@]}" -pthread
else
    say "no compiler of C has sanitizers: left out are the checks with them"
fi
it=$(sanitizing "${race_sanitizer[@]}")
if [[ -n $it ]]; then
    check "examples/threads.c with ThreadSanitizer" sanitized examples/threads.c examples/threads.expected "$it" "${race_sanitizer[@]}" -pthread
else
    say "no compiler of C has ThreadSanitizer: left out is the check with it"
fi
if [[ -z $tried ]]; then
    check "the installation of the library without proofs" tried_is_installed
    for example in host hosting; do
        check "examples/$example.c with the library without proofs" tried_prints "$example"
    done
fi
echo "$passed passed, $failed failed"
[[ $failed == 0 ]]
