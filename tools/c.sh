# Sourced by the scripts that compile C programs. The compiler is cc. Where there is none, or CC=kit asks for it, it is the kit's clang,
# with the few lines of the C library's headers that the programs here need; it links for x86-64 alone.

machine=$(uname -m)
toolchain=$(dirname "$(rt doc)")/toolchain
c_way=cc
if [ "${CC:-}" = kit ] || ! cc --version >/dev/null 2>&1; then c_way=kit; fi

# Prints why no C program can be linked here, or nothing.
c_missing() { [ $c_way = cc ] || [ "$machine" = x86_64 ] || echo "no cc here, and the kit links for x86-64 alone"; }

# Compiles C; the words are those that cc and clang both take.
c_compile() {
    if [ $c_way = cc ]; then cc "$@"; else kit_compile "$@"; fi
}

# The same for C++; the kit's clang reads it too.
cxx_compile() {
    if [ $c_way = cc ] && c++ --version >/dev/null 2>&1; then c++ "$@"; else kit_compile "$@"; fi
}

kit_compile() {
    kit_headers
    "$toolchain/bin/clang" --no-default-config --target="$machine-unknown-linux-gnu" -nostdinc -isystem "$root/target/c/include" "$@"
}

# The names that the header, its test and the example take from the C library.
kit_headers() {
    local here=$root/target/c/include
    mkdir -p "$here"
    printf '%s\n' '#pragma once' '#ifndef __cplusplus' '#define bool _Bool' '#define true 1' '#define false 0' '#endif' >"$here/stdbool.h"
    printf '%s\n' '#pragma once' 'typedef __SIZE_TYPE__ size_t;' '#define offsetof __builtin_offsetof' >"$here/stddef.h"
    printf '%s\n' '#pragma once' 'typedef __UINT8_TYPE__ uint8_t;' 'typedef __UINT16_TYPE__ uint16_t;' \
        'typedef __UINT32_TYPE__ uint32_t;' 'typedef __UINT64_TYPE__ uint64_t;' >"$here/stdint.h"
    printf '%s\n' '#pragma once' 'int printf(const char *, ...);' >"$here/stdio.h"
    printf '%s\n' '#pragma once' 'void *memset(void *, int, __SIZE_TYPE__);' >"$here/string.h"
}

# Links objects and archives to a program.
c_link() { # OUT FILE...
    local out=$1 lib=$toolchain/lib
    shift
    if [ $c_way = cc ]; then cc -o "$out" "$@"; return; fi
    "$toolchain/bin/ld.lld" -pie -dynamic-linker /lib64/ld-linux-x86-64.so.2 -o "$out" \
        "$lib/Scrt1.o" "$lib/crti.o" "$lib/crtbeginS.o" "$@" \
        "$lib/libc.so.6" "$lib/libc_nonshared.a" "$lib/libgcc.a" "$lib/crtendS.o" "$lib/crtn.o"
}
