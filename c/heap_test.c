/* heap.c keeps what its head says: alignment, blocks of no bytes, kept bytes, and refusals. */
#include <assert.h>
#include <stdbool.h>
#include <stddef.h>
#include <stdint.h>
#include <stdio.h>
#include <string.h>

struct tried {
    bool ok;
    void *at;
};

struct tried rattle_alloc(size_t size, size_t align);
struct tried rattle_realloc(void *at, size_t kept, size_t size, size_t align);
void rattle_dealloc(void *at);

enum { BLOCKS = 64 };

/* sizes that no machine has, below 2^63 */
static const size_t too_much[] = {(size_t)1 << 62, ((size_t)1 << 63) - 1};

int main(void)
{
    static const size_t aligns[] = {1, 2, 4, 8, 16};
    for (size_t a = 0; a < sizeof aligns / sizeof *aligns; a++) {
        unsigned char *blocks[BLOCKS];
        /* block i has i bytes, all of them i: so none overlaps another, and those of no bytes have places of their own */
        for (size_t i = 0; i < BLOCKS; i++) {
            struct tried block = rattle_alloc(i, aligns[a]);
            assert(block.ok && block.at && (uintptr_t)block.at % 16 == 0);
            blocks[i] = memset(block.at, (int)i, i);
        }
        for (size_t i = 0; i < BLOCKS; i++)
            for (size_t k = 0; k < i; k++)
                assert(blocks[i][k] == i && blocks[i] != blocks[k]);
        for (size_t i = 0; i < BLOCKS; i++) {
            for (size_t n = 0; n < 2; n++) {
                struct tried refused = rattle_realloc(blocks[i], i, too_much[n], aligns[a]);
                assert(!refused.ok && refused.at);
                for (size_t k = 0; k < i; k++)
                    assert(blocks[i][k] == i);
            }
            struct tried grown = rattle_realloc(blocks[i], i, 1000 * i, aligns[a]);
            assert(grown.ok && grown.at && (uintptr_t)grown.at % 16 == 0);
            for (size_t k = 0; k < i; k++)
                assert(((unsigned char *)grown.at)[k] == i);
            struct tried shrunk = rattle_realloc(grown.at, i / 2, i / 2, aligns[a]);
            assert(shrunk.ok && shrunk.at);
            for (size_t k = 0; k < i / 2; k++)
                assert(((unsigned char *)shrunk.at)[k] == i);
            rattle_dealloc(shrunk.at);
        }
    }
    for (size_t n = 0; n < 2; n++) {
        struct tried refused = rattle_alloc(too_much[n], 16);
        assert(!refused.ok && refused.at);
    }
    puts("heap.c keeps its promises");
    return 0;
}
