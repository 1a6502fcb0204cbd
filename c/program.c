/* What the programs call beside heap.c and the C library: their arguments, and the number of the last error.

   rattle_arg(i, to, size)   Puts argument i, the program's name being argument 0, at the start of the `size` bytes at `to`. Returns its
                             length; -1 if there is no such argument; -2 if it does not fit, and then the bytes are full of it. */
#include <errno.h>
#include <stddef.h>
#include <stdint.h>
#include <string.h>

intptr_t rattle_arg(size_t i, unsigned char *to, size_t size);
int32_t rattle_errno(void);
void rattle_set_errno(int32_t error);

static int count;
static char **arguments;

/* glibc hands these to what runs before main */
__attribute__((constructor)) static void keep_arguments(int argc, char **argv)
{
    count = argc;
    arguments = argv;
}

intptr_t rattle_arg(size_t i, unsigned char *to, size_t size)
{
    if (i >= (size_t)count)
        return -1;
    size_t length = strlen(arguments[i]);
    memcpy(to, arguments[i], length < size ? length : size);
    return length <= size ? (intptr_t)length : -2;
}

int32_t rattle_errno(void)
{
    return errno;
}

void rattle_set_errno(int32_t error)
{
    errno = error;
}
