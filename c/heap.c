/* The memory of the proved library: the three functions that it calls and does not define. Its proofs assume of them what follows.

   rattle_alloc(size, align)   align divides 16, and size is below 2^63. If ok, `at` is the start of a new block of that many bytes, which
                               overlaps no other and is aligned to 16; for a size of 0 as well, where nothing is read or written. If
                               not, `at` is not null, and nothing lies there.
   rattle_realloc(at, kept, size, align)
                               `at` is the start of a block that was returned and is not freed. If ok, the block has moved to the
                               result, has `size` bytes, and begins with the `kept` bytes that it began with; if not, it is as it was.
   rattle_dealloc(at)          Ends the block at `at`.

   Any of them may refuse at any time. They may run in several threads at a time. */
#include <stdbool.h>
#include <stddef.h>
#include <stdlib.h>

struct tried {
    bool ok;
    void *at;
};

struct tried rattle_alloc(size_t size, size_t align);
struct tried rattle_realloc(void *at, size_t kept, size_t size, size_t align);
void rattle_dealloc(void *at);

static char no_block;

static struct tried tried(void *at)
{
    return (struct tried){.ok = at != NULL, .at = at ? at : &no_block};
}

/* malloc aligns to 16 on the machines of rust/dist/. A block of no bytes has a place of its own all the same. */
_Static_assert(_Alignof(max_align_t) >= 16, "malloc aligns to 16");

struct tried rattle_alloc(size_t size, size_t align)
{
    return tried(malloc(size ? size : align));
}

struct tried rattle_realloc(void *at, size_t kept, size_t size, size_t align)
{
    (void)kept;
    return tried(realloc(at, size ? size : align));
}

void rattle_dealloc(void *at)
{
    free(at);
}
