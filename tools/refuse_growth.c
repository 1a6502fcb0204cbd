/* Refuses one growth of the program that it is loaded into: the one whose number, counted from 1, is in REFUSE_GROWTH.
   With 0 it refuses none. At the end the number of growths that were asked for goes into the file that GROWTHS names.
   The toolchain's compiler comes without headers, so the C library's functions are declared here. */
typedef unsigned long size_t;

extern void *__libc_malloc(size_t size);
extern void *__libc_realloc(void *old, size_t size);
extern void *__libc_calloc(size_t count, size_t size);
extern char *getenv(const char *name);
extern long atol(const char *digits);
extern int creat(const char *name, unsigned int mode);
extern int dprintf(int file, const char *format, ...);

static long asked, refused = -1;

static int is_refused(void) {
    if (refused < 0) {
        const char *number = getenv("REFUSE_GROWTH");
        refused = number ? atol(number) : 0;
    }
    asked += 1;
    return asked == refused;
}

void *malloc(size_t size) { return is_refused() ? (void *)0 : __libc_malloc(size); }

void *realloc(void *old, size_t size) { return is_refused() ? (void *)0 : __libc_realloc(old, size); }

void *calloc(size_t count, size_t size) { return is_refused() ? (void *)0 : __libc_calloc(count, size); }

__attribute__((destructor)) static void tell(void) {
    const char *name = getenv("GROWTHS");
    long count = asked;
    int file = name ? creat(name, 0600) : -1;
    if (file >= 0) {
        dprintf(file, "%ld\n", count);
    }
}
