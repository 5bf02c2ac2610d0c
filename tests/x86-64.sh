# Sourced by tests/c-library and bench/compare with `set -euo pipefail`: finds a C compiler for x86-64 and a way to run what it makes, and says
# how to build a program against the archive. On Arm programs are cross-compiled and run under qemu-x86_64. Debian's packages are installed
# where something is missing.
#
# Before: top, the repository's folder; archive, the library; work, a folder for what is built. After: build, build_small, run, emulate, and prefix for the names of binutils.
# From the environment: CC, and LDFLAGS and LDLIBS for linking the archive.

need() { # program or file, package
    if command -v "$1" >/dev/null || [ -e "$1" ]; then return; fi
    local root=
    [ "$(id -u)" = 0 ] || root=sudo
    $root apt-get update -qq
    $root apt-get install -qq -y --no-install-recommends "${@:2}"
}

cc=${CC:-gcc} prefix= emulate=() link=()
case $(uname -m) in
x86_64) [ -n "${CC:-}" ] || need gcc gcc libc6-dev
    need objdump binutils ;;
aarch64)
    need x86_64-linux-gnu-gcc gcc-x86-64-linux-gnu
    need /usr/x86_64-linux-gnu/lib/libc.a libc6-dev-amd64-cross
    need qemu-x86_64 qemu-user
    cc=x86_64-linux-gnu-gcc prefix=x86_64-linux-gnu- emulate=(qemu-x86_64) link=(-static) ;; # static: the emulator then needs no x86-64 libraries
*) echo "x86-64 or Arm only" >&2; exit 2 ;;
esac
read -ra more <<<"${LDFLAGS:-} ${LDLIBS:-}" || true

flags=(-std=c99 -Wall -Wextra -Werror -I"$top/include")
build() { # program, sources and objects; the archive comes last, as a linker wants it
    local program=$1
    shift
    "$cc" "${flags[@]}" -O2 -o "$work/$program" "$@" "$archive" "${link[@]}" "${more[@]}"
}

# The functions of the header, a line each: the name, and how many of its parameters go by the stack (the first six do not).
functions() {
    "$cc" -E -P "$top/include/nwb.h" | tr '\n;' ' \n' | sed -nE 's/.*[ *](nwb_[a-z0-9_]+) *\(([^)]*)\).*/\1 \2/p' |
        awk '{ name = $1; sub(/^[^ ]+ */, ""); n = $0 == "void" ? 0 : gsub(/,/, "") + 1; print name, (n > 6 ? n - 6 : 0) }'
}

# As build, and each call of the library is made on a stack of 4 KiB (tests/small-stack.c). Functions of other libraries are bound beforehand: the first call would do it on that stack.
build_small() { # program, sources and objects
    local program=$1 name words wrap=()
    shift
    while read -r name words; do wrap+=("-Wl,--wrap=$name"); done < <(functions)
    functions | sed -E 's/(.*) (.*)/FUNCTION(\1, \2)/' >"$work/functions.h"
    build "$program" -I"$work" -Wl,-z,now "${wrap[@]}" "$@" "$top/tests/small-stack.c"
}
build_reference() { "$cc" "${flags[@]}" -O3 -c -o "$work/reference.o" "$top/tests/reference.c"; }
run() { "${emulate[@]}" "$@"; }
