/*
 * What the translated functions stand on: the memory of an instance, whose every access is checked, and the arithmetic of
 * WebAssembly. Nothing here and in what follows is shared between instances or kept between calls.
 *
 * The loads, stores and operations are written after those of wasm2c of WABT (Copyright 2016-2023 WebAssembly Community
 * Group participants, Apache License 2.0), whose names the translation has. Other than there, memory is little-endian on
 * every system, what stops a call jumps to where the instance was entered, and no signal is handled.
 */
#include <float.h>
#include <limits.h>
#include <math.h>
#include <setjmp.h>
#include <stddef.h>
#include <stdint.h>
#include <stdlib.h>
#include <string.h>

#if defined(__cplusplus)
#error "rp.c is C, and no C++: compile it as C"
#endif
#if defined(__GNUC__) && (!defined(__STDC_VERSION__) || __STDC_VERSION__ < 199901L)
#error "rp.c is C99: compile it by -std=c99 or a later one"
#endif
#if !defined(UINT64_MAX) || !defined(SIZE_MAX) || CHAR_BIT != 8
#error "rp.c wants a compiler of C99 with bytes of 8 bits and whole numbers of 64"
#endif
#if SIZE_MAX < 0xffffffff
#error "rp.c wants a system whose addresses have 32 bits or more"
#endif
#if (-3 >> 1) != -2
#error "rp.c wants a compiler whose shifts to the right keep the sign"
#endif
#if FLT_EVAL_METHOD < 0 || FLT_EVAL_METHOD > 1 || defined(__FAST_MATH__)
#error "rp.c wants doubles that are rounded after each operation: for x86 of 32 bits say -msse2 -mfpmath=sse; no -ffast-math"
#endif
#if FLT_RADIX != 2 || DBL_MANT_DIG != 53 || DBL_MAX_EXP != 1024
#error "rp.c wants a compiler whose doubles are those of 64 bits of IEEE 754"
#endif

typedef uint8_t u8;
typedef int8_t s8;
typedef uint16_t u16;
typedef int16_t s16;
typedef uint32_t u32;
typedef int32_t s32;
typedef uint64_t u64;
typedef int64_t s64;
/* Variables of it are volatile, so that each operation is rounded by itself, as in WebAssembly. */
typedef double f64;

#if defined(__GNUC__)
#define LIKELY(x) __builtin_expect(!!(x), 1)
#define UNLIKELY(x) __builtin_expect(!!(x), 0)
#define NEVER_RETURNS __attribute__((noreturn))
#define MAY_BE_UNUSED __attribute__((unused))
#else
#define LIKELY(x) (x)
#define UNLIKELY(x) (x)
#define NEVER_RETURNS
#define MAY_BE_UNUSED
#endif
#if defined(__GNUC__) && !defined(_WIN32)
#define WITHIN_LIBRARY __attribute__((visibility("hidden")))
#else
#define WITHIN_LIBRARY
#endif
#define HELPER static inline MAY_BE_UNUSED

/*
 * The file as a whole is one unit. Where RP_PART is a number, it is that part of it alone, so that a few compilers work
 * side by side: 0 is the call, and 1 to RP_PARTS are the functions that it stands on.
 */
#ifdef RP_PART
#define RP_HAS(part) (RP_PART == (part))
#define RP_FUNCTION WITHIN_LIBRARY
#else
#define RP_HAS(part) 1
#define RP_FUNCTION static
#endif

#define PAGE 65536u

/* The memory of an instance. */
typedef struct {
    u8 *data;
    u32 size;           /* in bytes, a multiple of a page */
    u32 pages, most;    /* the same in pages, and what it may grow to */
    u32 room;           /* pages that data has room for */
    u32 depth;          /* calls that have not returned */
    jmp_buf *stopped;   /* where a call goes on that stops */
} wasm_rt_memory_t;

/* Stops the call: an address is outside the memory, or what the module marks as never reached was. */
HELPER NEVER_RETURNS void stop(wasm_rt_memory_t *memory) {
    longjmp(*memory->stopped, 1);
}

/* Stops the call where an access of so many bytes leaves the memory. */
#define CHECK(memory, address, count) \
    do { \
        if (UNLIKELY((u64)(address) + (u64)(count) > (memory)->size)) stop(memory); \
    } while (0)

/* Whether numbers lie in memory as in WebAssembly's, the lowest byte first. */
#if (defined(__BYTE_ORDER__) && defined(__ORDER_LITTLE_ENDIAN__) && __BYTE_ORDER__ == __ORDER_LITTLE_ENDIAN__) || defined(_WIN32)
#define LITTLE_ENDIAN_HERE 1
#else
#define LITTLE_ENDIAN_HERE 0
#endif

#if LITTLE_ENDIAN_HERE
#define DEFINE_BYTES(bits) \
    HELPER u##bits get##bits(const u8 *at) { \
        u##bits value; \
        memcpy(&value, at, sizeof value); \
        return value; \
    } \
    HELPER void put##bits(u8 *at, u##bits value) { \
        memcpy(at, &value, sizeof value); \
    }
#else
#define DEFINE_BYTES(bits) \
    HELPER u##bits get##bits(const u8 *at) { \
        u64 value = 0; \
        for (unsigned byte = 0; byte < bits / 8; byte++) value |= (u64)at[byte] << (8 * byte); \
        return (u##bits)value; \
    } \
    HELPER void put##bits(u8 *at, u##bits value) { \
        for (unsigned byte = 0; byte < bits / 8; byte++) at[byte] = (u8)((u64)value >> (8 * byte)); \
    }
#endif
DEFINE_BYTES(8)
DEFINE_BYTES(16)
DEFINE_BYTES(32)
DEFINE_BYTES(64)

/* A load of so many bits, taken as of this type, into a number of that type. */
#define DEFINE_LOAD(name, bits, of, into) \
    HELPER into name(wasm_rt_memory_t *memory, u64 address) { \
        CHECK(memory, address, bits / 8); \
        return (into)(of)get##bits(memory->data + address); \
    }
#define DEFINE_STORE(name, bits, of) \
    HELPER void name(wasm_rt_memory_t *memory, u64 address, of value) { \
        CHECK(memory, address, bits / 8); \
        put##bits(memory->data + address, (u##bits)value); \
    }
DEFINE_LOAD(i32_load, 32, u32, u32)
DEFINE_LOAD(i64_load, 64, u64, u64)
DEFINE_LOAD(i32_load8_s, 8, s8, u32)
DEFINE_LOAD(i64_load8_s, 8, s8, u64)
DEFINE_LOAD(i32_load8_u, 8, u8, u32)
DEFINE_LOAD(i64_load8_u, 8, u8, u64)
DEFINE_LOAD(i32_load16_s, 16, s16, u32)
DEFINE_LOAD(i64_load16_s, 16, s16, u64)
DEFINE_LOAD(i32_load16_u, 16, u16, u32)
DEFINE_LOAD(i64_load16_u, 16, u16, u64)
DEFINE_LOAD(i64_load32_s, 32, s32, u64)
DEFINE_LOAD(i64_load32_u, 32, u32, u64)
DEFINE_STORE(i32_store, 32, u32)
DEFINE_STORE(i64_store, 64, u64)
DEFINE_STORE(i32_store8, 8, u32)
DEFINE_STORE(i32_store16, 16, u32)
DEFINE_STORE(i64_store8, 8, u64)
DEFINE_STORE(i64_store16, 16, u64)
DEFINE_STORE(i64_store32, 32, u64)

HELPER u64 i64_reinterpret_f64(f64 number) {
    u64 bits;
    memcpy(&bits, &number, sizeof bits);
    return bits;
}

HELPER f64 f64_reinterpret_i64(u64 bits) {
    f64 number;
    memcpy(&number, &bits, sizeof number);
    return number;
}

HELPER f64 f64_load(wasm_rt_memory_t *memory, u64 address) {
    return f64_reinterpret_i64(i64_load(memory, address));
}

HELPER void f64_store(wasm_rt_memory_t *memory, u64 address, f64 number) {
    i64_store(memory, address, i64_reinterpret_f64(number));
}

HELPER void memory_fill(wasm_rt_memory_t *memory, u32 to, u32 value, u32 count) {
    CHECK(memory, to, count);
    memset(memory->data + to, (int)(value & 255), count);
}

HELPER void memory_copy(wasm_rt_memory_t *into, const wasm_rt_memory_t *of, u32 to, u32 from, u32 count) {
    (void)of;
    CHECK(into, to, count);
    CHECK(into, from, count);
    memmove(into->data + to, into->data + from, count);
}

/* Makes the memory longer by so many pages, each byte 0; how many it had, or the greatest number where there is no room. */
HELPER u32 wasm_rt_grow_memory(wasm_rt_memory_t *memory, u32 more) {
    u32 before = memory->pages;
    if (more > memory->most - before) return UINT32_MAX;
    u32 wanted = before + more;
    if (wanted > memory->room) {
        u32 room = wanted > memory->most - memory->room ? memory->most : wanted + memory->room;
        u8 *grown = (u8 *)realloc(memory->data, (size_t)room * PAGE);
        if (!grown) {
            room = wanted;
            grown = (u8 *)realloc(memory->data, (size_t)room * PAGE);
        }
        if (!grown) return UINT32_MAX;
        memory->data = grown;
        memory->room = room;
    }
    memset(memory->data + (size_t)before * PAGE, 0, (size_t)more * PAGE);
    memory->pages = wanted;
    memory->size = wanted * PAGE;
    return before;
}

/* How deep calls may lie in each other; those of an answer lie less deep than 200. */
#define MOST_DEPTH 2000
#define FUNC_PROLOGUE \
    do { \
        if (UNLIKELY(++instance->w2c_memory.depth > MOST_DEPTH)) stop(&instance->w2c_memory); \
    } while (0)
#define FUNC_EPILOGUE (void)--instance->w2c_memory.depth
#define UNREACHABLE stop(&instance->w2c_memory)
#define STOPPED (stop(&instance->w2c_memory), 0)

HELPER u32 bits_in(u64 x) {
    u32 count = 0;
    for (; x; x &= x - 1) count++;
    return count;
}

/* How many bits stand above the highest one that is set, of 64. */
HELPER u32 zeros_above(u64 x) {
    u32 count = 64;
    for (; x; x >>= 1) count--;
    return count;
}

#if defined(__GNUC__)
#define I32_CLZ(x) ((x) ? (u32)__builtin_clz(x) : 32u)
#define I64_CLZ(x) ((x) ? (u64)__builtin_clzll(x) : 64u)
#define I32_CTZ(x) ((x) ? (u32)__builtin_ctz(x) : 32u)
#define I64_CTZ(x) ((x) ? (u64)__builtin_ctzll(x) : 64u)
#define I32_POPCNT(x) ((u32)__builtin_popcount(x))
#define I64_POPCNT(x) ((u64)__builtin_popcountll(x))
#else
#define I32_CLZ(x) (zeros_above((u32)(x)) - 32u)
#define I64_CLZ(x) ((u64)zeros_above(x))
#define I32_CTZ(x) ((x) ? bits_in(((u32)(x) & (0u - (u32)(x))) - 1u) : 32u)
#define I64_CTZ(x) ((u64)((x) ? bits_in(((u64)(x) & (0u - (u64)(x))) - 1u) : 64u))
#define I32_POPCNT(x) (bits_in((u32)(x)))
#define I64_POPCNT(x) ((u64)bits_in(x))
#endif

#define DIV_S(unsigned_type, least, x, y) \
    (UNLIKELY((y) == 0 || ((x) == (least) && (y) == -1)) ? STOPPED : (unsigned_type)((x) / (y)))
#define REM_S(unsigned_type, least, x, y) \
    (UNLIKELY((y) == 0) ? STOPPED : (y) == -1 ? 0 : (unsigned_type)((x) % (y)))
#define I32_DIV_S(x, y) DIV_S(u32, INT32_MIN, (s32)x, (s32)y)
#define I64_DIV_S(x, y) DIV_S(u64, INT64_MIN, (s64)x, (s64)y)
#define I32_REM_S(x, y) REM_S(u32, INT32_MIN, (s32)x, (s32)y)
#define I64_REM_S(x, y) REM_S(u64, INT64_MIN, (s64)x, (s64)y)
#define DIV_U(x, y) (UNLIKELY((y) == 0) ? STOPPED : (x) / (y))
#define REM_U(x, y) (UNLIKELY((y) == 0) ? STOPPED : (x) % (y))
#define ROTL(x, y, mask) (((x) << ((y) & (mask))) | ((x) >> (((mask) - (y) + 1) & (mask))))
#define ROTR(x, y, mask) (((x) >> ((y) & (mask))) | ((x) << (((mask) - (y) + 1) & (mask))))
#define I32_ROTL(x, y) ROTL(x, y, 31)
#define I64_ROTL(x, y) ROTL(x, y, 63)
#define I32_ROTR(x, y) ROTR(x, y, 31)
#define I64_ROTR(x, y) ROTR(x, y, 63)
