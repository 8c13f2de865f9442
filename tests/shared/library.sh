# What the tests in C need. tests/all, tests/differential and tests/benchmark read it in, from the repository's root.
#
#     find_compilers            looks for the compilers, and sets `compiler`, `cpp_compiler` and `emulator`; `missing` and `missing_cpp`
#                               name the packages without which the first, or the second, does not work, and are empty where it does
#     need_compiler             the same of the C compiler alone, and ends with status 1 where there is none
#     build_library             proves and builds the library, and sets `library`
#     build PROGRAM SOURCE ...  compiles a program into target/tests and links it with the library
#
# The library is for x86-64: on Arm a cross compiler and an emulator of the system's packages are used. Packages are installed with CI=true
# set, and never else. TURNIP_LIBRARY names a libturnip.a that was built before, here or elsewhere: it is then tested as it is.

strict='-Wall -Wextra -pedantic -Werror'
programs=target/tests

# Whether a compiler makes a program of C or C++ that runs. The C compiler links it, as one for C++ on Arm does not find its libm.
works() {
    printf '#include <stdio.h>\nint main(void) { return puts("works") < 0; }\n' >"$programs/works.c"
    { "$1" -x "$2" -c -o "$programs/works.o" "$programs/works.c" &&
        "$compiler" -static -o "$programs/works" "$programs/works.o" && $emulator "$programs/works"; } >/dev/null 2>&1
}

look_for_compilers() {
    missing=$packages missing_cpp=$packages_cpp
    if works "$compiler" c; then missing=; fi
    if [ -n "$missing_cpp" ] && works "$cpp_compiler" c++; then missing_cpp=; fi
}

# Without a network this is to end soon, so each of the two has two minutes.
install() {
    as_root=
    if [ "$(id -u)" -ne 0 ]; then as_root=sudo; fi
    { $as_root timeout 120 apt-get update && $as_root timeout 120 apt-get install -y --no-install-recommends "$@"; } \
        >"$programs/install.log" 2>&1
}

find_compilers() {
    mkdir -p "$programs"
    if [ "$(uname -m)" = x86_64 ]; then
        compiler=cc cpp_compiler=c++ emulator=
        packages='gcc libc6-dev' packages_cpp='g++'
    else
        compiler=x86_64-linux-gnu-gcc cpp_compiler=x86_64-linux-gnu-g++ emulator=qemu-x86_64
        packages='gcc-x86-64-linux-gnu libc6-dev-amd64-cross qemu-user' packages_cpp='g++-x86-64-linux-gnu'
    fi
    if [ "${1:-}" = c ]; then packages_cpp=; fi
    look_for_compilers
    if [ -n "$missing$missing_cpp" ] && [ "${CI:-}" = true ]; then
        install $missing $missing_cpp || printf 'Installing %s failed; %s/install.log says why.\n' \
            "$(echo $missing $missing_cpp)" "$programs" >&2
        look_for_compilers
    fi
}

need_compiler() {
    find_compilers c
    if [ -n "$missing" ]; then
        printf '%s was not run: no C compiler for x86-64 works here. Install the packages %s; with CI=true set this is tried.\n' \
            "$0" "$missing" >&2
        exit 1
    fi
}

# What the prover says is shown only where it fails.
build_library() {
    library=${TURNIP_LIBRARY:-target/staticlib/libturnip.a}
    if [ -n "${TURNIP_LIBRARY:-}" ]; then
        [ -r "$library" ] || {
            printf 'TURNIP_LIBRARY names %s, which cannot be read.\n' "$library" >&2
            return 1
        }
        return 0
    fi
    rm -f "$library"
    said=$(cd crates/turnip_c && rt lib 2>&1 </dev/null) && mkdir -p target/staticlib &&
        cp crates/turnip_c/out/libturnip_c.a "$library" || {
        printf '%s\nThe library could not be proved and built: see above.\n' "$said" >&2
        return 1
    }
}

# Linked statically, so that the emulator needs nothing of the other machine. LEVEL names another level than -O2.
build() {
    program=$1
    shift
    "$compiler" -std=c11 "${LEVEL:--O2}" $strict -static -pthread -Iinclude -Itests -o "$programs/$program" "$@" tests/shared/*.c \
        "$library"
}
