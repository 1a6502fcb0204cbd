/* What the page calls beside fadrinzo.h, and what a module without a C library needs: a heap, and the functions that compiled
   code calls by name. Freed blocks are kept by size, in powers of two. */
#include <stddef.h>
#include <stdint.h>

void *memcpy(void *restrict to, const void *restrict from, size_t size)
{
    unsigned char *out = to;
    const unsigned char *in = from;
    while (size--)
        *out++ = *in++;
    return to;
}

void *memmove(void *to, const void *from, size_t size)
{
    unsigned char *out = to;
    const unsigned char *in = from;
    if ((size_t)out - (size_t)in >= size)
        return memcpy(to, from, size);
    while (size--)
        out[size] = in[size];
    return to;
}

void *memset(void *to, int byte, size_t size)
{
    unsigned char *out = to;
    while (size--)
        *out++ = (unsigned char)byte;
    return to;
}

int memcmp(const void *one, const void *other, size_t size)
{
    const unsigned char *a = one, *b = other;
    for (; size--; a++, b++)
        if (*a != *b)
            return *a < *b ? -1 : 1;
    return 0;
}

#undef overlay_c_sizes
#undef overlay_c_report
#undef overlay_c_arranged_report
#define overlay_c_sizes declared_sizes
#define overlay_c_report declared_report
#define overlay_c_arranged_report declared_arranged_report
#include "../c/fadrinzo_exports.h"

/* Code for x86-64 takes the place of a large result as its first argument, and also returns it, which C for wasm64 does not. */
uint64_t given_sizes(fadrinzo_sizes *to, fadrinzo_handle *handle) __asm__("overlay_c_sizes");
uint64_t given_report(fadrinzo_report *to, fadrinzo_handle *handle) __asm__("overlay_c_report");
uint64_t given_arranged_report(fadrinzo_report *to, fadrinzo_handle *handle) __asm__("overlay_c_arranged_report");

fadrinzo_sizes page_sizes(fadrinzo_handle *handle)
{
    fadrinzo_sizes sizes;
    given_sizes(&sizes, handle);
    return sizes;
}

fadrinzo_report page_report(fadrinzo_handle *handle)
{
    fadrinzo_report report;
    given_report(&report, handle);
    return report;
}

fadrinzo_report page_arranged_report(fadrinzo_handle *handle)
{
    fadrinzo_report report;
    given_arranged_report(&report, handle);
    return report;
}

/* the lower 128 bits of a product */
__extension__ typedef __int128 wide;

/* shifts of 128 bits */
union halves {
    wide number;
    uint64_t half[2];
};

wide __ashlti3(wide number, int by)
{
    union halves of = {number}, to;
    to.half[1] = by >= 64 ? of.half[0] << (by - 64) : by ? of.half[1] << by | of.half[0] >> (64 - by) : of.half[1];
    to.half[0] = by >= 64 ? 0 : of.half[0] << by;
    return to.number;
}

wide __lshrti3(wide number, int by)
{
    union halves of = {number}, to;
    to.half[0] = by >= 64 ? of.half[1] >> (by - 64) : by ? of.half[0] >> by | of.half[1] << (64 - by) : of.half[0];
    to.half[1] = by >= 64 ? 0 : of.half[1] >> by;
    return to.number;
}

wide __multi3(wide a, wide b)
{
    unsigned long long x = (unsigned long long)a, y = (unsigned long long)b;
    unsigned long long x0 = x & 0xffffffff, x1 = x >> 32, y0 = y & 0xffffffff, y1 = y >> 32;
    unsigned long long low = x0 * y0, middle = x1 * y0 + (low >> 32), other = x0 * y1 + (middle & 0xffffffff);
    unsigned long long high = x1 * y1 + (middle >> 32) + (other >> 32);
    high += x * (unsigned long long)(b >> 64) + y * (unsigned long long)(a >> 64);
    __extension__ unsigned __int128 whole = high;
    return (wide)(whole << 64 | other << 32 | (low & 0xffffffff));
}

/* the quotient of 128 bits, by shifts and subtractions where 64 bits do not do */
__extension__ typedef unsigned __int128 whole;

static int width(whole number)
{
    uint64_t high = (uint64_t)(number >> 64), low = (uint64_t)number;
    return high ? 128 - __builtin_clzll(high) : low ? 64 - __builtin_clzll(low) : 0;
}

whole __udivti3(whole of, whole by)
{
    if (!(of >> 64) && !(by >> 64))
        return (uint64_t)of / (uint64_t)by;
    int shift = width(of) - width(by);
    if (shift < 0)
        return 0;
    whole quotient = 0;
    for (by <<= shift; shift >= 0; shift--, by >>= 1) {
        quotient <<= 1;
        if (of >= by) {
            of -= by;
            quotient |= 1;
        }
    }
    return quotient;
}

wide __divti3(wide of, wide by)
{
    whole quotient = __udivti3(of < 0 ? -(whole)of : (whole)of, by < 0 ? -(whole)by : (whole)by);
    return (wide)((of < 0) != (by < 0) ? -quotient : quotient);
}

enum { KINDS = 48, HEAD = 16 };

extern unsigned char __heap_base[];
static unsigned char *top, *end;
static void *freed[KINDS];

static int kind_of(size_t size)
{
    int kind = 5;
    while (kind < KINDS && (size_t)1 << kind < size + HEAD)
        kind++;
    return kind;
}

void *malloc(size_t size)
{
    int kind = kind_of(size);
    if (kind == KINDS)
        return NULL;
    unsigned char *block = freed[kind];
    if (block) {
        freed[kind] = *(void **)(block + HEAD);
        return block + HEAD;
    }
    if (!top) {
        top = (unsigned char *)(((size_t)__heap_base + 15) / 16 * 16);
        end = (unsigned char *)(__builtin_wasm_memory_size(0) << 16);
    }
    size_t length = (size_t)1 << kind;
    if ((size_t)(end - top) < length) {
        size_t pages = (length - (size_t)(end - top) + 65535) >> 16;
        if (__builtin_wasm_memory_grow(0, pages) == (size_t)-1)
            return NULL;
        end += pages << 16;
    }
    block = top;
    top += length;
    *(int *)block = kind;
    return block + HEAD;
}

void free(void *at)
{
    if (!at)
        return;
    int kind = *(int *)((unsigned char *)at - HEAD);
    *(void **)at = freed[kind];
    freed[kind] = (unsigned char *)at - HEAD;
}

void *calloc(size_t count, size_t size)
{
    void *at = size && count > SIZE_MAX / size ? NULL : malloc(count * size);
    return at ? memset(at, 0, count * size) : NULL;
}

void *realloc(void *at, size_t size)
{
    if (!at)
        return malloc(size);
    size_t had = ((size_t)1 << *(int *)((unsigned char *)at - HEAD)) - HEAD;
    if (size <= had)
        return at;
    void *to = malloc(size);
    if (to) {
        memcpy(to, at, had);
        free(at);
    }
    return to;
}
