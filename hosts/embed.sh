#!/bin/sh
# embed.sh OUT.c OUT.h NAME KERNEL CONDITIONS CERTIFICATE [NAME KERNEL CONDITIONS CERTIFICATE ..]: texts as data of a program, with a header
# file that names them. OUT.c is C and C++, for compilers with the assembler's .incbin (gcc, clang).
data=$1 header=$2
shift 2

{
    cat <<'END'
#ifndef KV_PART
#include <stddef.h>
#ifdef __cplusplus
#define KV_DECLARED(name) \
    extern "C" const char kv_##name##_kernel[], kv_##name##_kernel_end[], kv_##name##_conditions[], kv_##name##_conditions_end[], \
        kv_##name##_certificate[], kv_##name##_certificate_end[];
#else
#define KV_DECLARED(name) \
    extern const char kv_##name##_kernel[], kv_##name##_kernel_end[], kv_##name##_conditions[], kv_##name##_conditions_end[], \
        kv_##name##_certificate[], kv_##name##_certificate_end[];
#endif
/* A text and its length; those of a check; and, in C++ behind kverify.hpp, the same as a kverify::texts. */
#define KV_PART(name, part) kv_##name##_##part, (size_t)(kv_##name##_##part##_end - kv_##name##_##part)
#define KV_TEXT(name) KV_PART(name, kernel)
#define KV_CONDITIONS(name) KV_PART(name, conditions)
#define KV_CERTIFICATE(name) KV_PART(name, certificate)
#define KV_KERNEL(name) KV_TEXT(name), KV_CONDITIONS(name), KV_CERTIFICATE(name)
#define KV_TEXTS(name) \
    kverify::texts { {KV_TEXT(name)}, {KV_CONDITIONS(name)}, {KV_CERTIFICATE(name)} }
#endif
END
    at=0
    for word; do
        [ $((at % 4)) != 0 ] || printf 'KV_DECLARED(%s)\n' "$word"
        at=$((at + 1))
    done
} >"$header.new"

# The name of a file in a C text of an assembler's text.
quoted() {
    printf '%s\n' "$1" | sed 's/[\\"]/\\&/g; s/[\\"]/\\&/g'
}

{
    printf '__asm__(".section .rodata\\n"\n'
    while [ $# -ge 4 ]; do
        name=$1
        shift
        for part in kernel conditions certificate; do
            symbol=kv_${name}_$part
            printf '        ".global %s, %s_end\\n%s: .incbin \\"%s\\"\\n%s_end: .byte 0\\n"\n' \
                "$symbol" "$symbol" "$symbol" "$(quoted "$1")" "$symbol"
            shift
        done
    done
    printf '        ".text\\n");\n'
} >"$data.new"

mv "$data.new" "$data" && mv "$header.new" "$header"
