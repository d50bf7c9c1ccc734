#!/bin/sh
# Uses what include/install has put into a folder as a stranger would: tests/c/installed.sh PREFIX
#
# Both libraries have the calls of the headers, the shared one nothing else; pkg-config and CMake lead to them; the versions
# of headers, library and program agree; a pool of one's own is asked in place of malloc. The last line is `N passed, M
# failed`.
set -u
cd "$(dirname "$0")" || exit
root=$(cd ../.. && pwd)
prefix=$1
cc=${CC:-cc}
work=$(mktemp -d)
trap 'rm -rf "$work"' EXIT
passed=0 failed=0
export PKG_CONFIG_PATH="$prefix/lib/pkgconfig" LD_LIBRARY_PATH="$prefix/lib"

# Counts whether a check ends well.
judge() {
    if "$@" >"$work/said" 2>&1; then
        passed=$((passed + 1))
    else
        failed=$((failed + 1))
        echo "$1: failed"
        tail -n 20 "$work/said"
    fi
}

calls_of_headers() {
    sed -nE 's/^uint(8|32)_t (iol_[a-z_]+)\(.*/\2/p' "$prefix"/include/iolink_*.h | sort -u
}

exports() {
    nm -D --defined-only "$prefix/lib/libiolink.so" | awk '{print $3}' | sort >"$work/exports"
    calls_of_headers >"$work/calls"
    [ "$(wc -l <"$work/calls")" -ge 40 ] && diff "$work/calls" "$work/exports"
}

static_has_calls() {
    nm --defined-only "$prefix/lib/libiolink.a" | awk '$2 == "T" {print $3}' | grep '^iol_' | sort | diff "$work/calls" -
}

soname() {
    readelf -d "$prefix/lib/libiolink.so" | grep -q "SONAME.*\[$(readlink "$prefix/lib/libiolink.so")\]"
}

# A program that was built prints what both.c has to.
is_both() {
    "$1" >"$work/printed" && diff both.stdout "$work/printed"
}

by_pkg_config() {
    # shellcheck disable=SC2046
    "$cc" both.c $(pkg-config --cflags --libs iolink) -o "$work/shared" && is_both "$work/shared" &&
        ldd "$work/shared" | grep -q "$prefix/lib/libiolink"
}

by_static() {
    # shellcheck disable=SC2046
    "$cc" both.c $(pkg-config --cflags iolink) "$(pkg-config --variable=libdir iolink)/libiolink.a" -o "$work/static" &&
        is_both "$work/static" && ! ldd "$work/static" | grep -q libiolink
}

by_cmake() {
    mkdir "$work/cmake"
    cat >"$work/cmake/CMakeLists.txt" <<END
cmake_minimum_required(VERSION 3.10)
project(both C)
find_package(iolink $1 REQUIRED)
add_executable(both $PWD/both.c)
target_link_libraries(both iolink::iolink)
add_executable(alone $PWD/both.c)
target_link_libraries(alone iolink::static)
END
    cmake -S "$work/cmake" -B "$work/cmake/built" -DCMAKE_PREFIX_PATH="$prefix" && cmake --build "$work/cmake/built" &&
        is_both "$work/cmake/built/both" && is_both "$work/cmake/built/alone"
}

no_later_version() {
    rm -rf "$work/cmake"
    ! by_cmake 99.0
}

versions() {
    cat >"$work/version.c" <<END
#include <iolink_device.h>
#include <iolink_port.h>
#include <stdio.h>
int main(void)
{
    printf("%d.%d.%d\n", IOLINK_VERSION / 10000, IOLINK_VERSION / 100 % 100, IOLINK_VERSION % 100);
    return iol_version() != IOLINK_VERSION;
}
END
    "$cc" -I "$prefix/include" "$work/version.c" "$prefix/lib/libiolink.a" -o "$work/version" || return
    "$work/version" >"$work/printed" || return
    pkg-config --modversion iolink | diff - "$work/printed" || return
    sed -n 's/^pub(crate) const VERSION: &str = "\(.*\)";$/\1/p' "$root/crates/iolink/src/help.rt" | diff - "$work/printed"
}

# Only what is called is linked: a device alone has no port in it, and a version neither.
only_what_is_called() {
    ! nm "$work/version" | grep -E 'iol_(port|device)_'
}

pool() {
    "$cc" -I "$prefix/include" -std=c11 -Wall -Wextra -Werror -pedantic -fsanitize=address,undefined pooled.c \
        "$root/examples/c/pool.c" "$prefix/lib/libiolink.a" -o "$work/pooled" && "$work/pooled"
}

judge exports
judge static_has_calls
judge soname
judge by_pkg_config
judge by_static
judge by_cmake 0.1
judge no_later_version
judge versions
judge only_what_is_called
judge pool
echo "$passed passed, $failed failed"
[ "$failed" -eq 0 ]
