/* Makes calls of the program that it is loaded into short, and lets some fail: of `read` on descriptor 0 by FAIL_INPUT, of
   `write` on 1 by FAIL_OUTPUT, and on 2 by FAIL_FAULTS. Each has three numbers: the first and the last call that fails, counted
   from 1, and the error. Any other call of that descriptor then takes one byte. At the end the number of calls on each goes into
   the file that CALLS names. The toolchain's compiler comes without headers, so the C library's functions are declared here. */
typedef unsigned long size_t;

extern long __read(int file, void *bytes, size_t size);
extern long __write(int file, const void *bytes, size_t size);
extern int *__errno_location(void);
extern char *getenv(const char *name);
extern int sscanf(const char *text, const char *format, ...);
extern int creat(const char *name, unsigned int mode);
extern int dprintf(int file, const char *format, ...);

static const char *const names[] = {"FAIL_INPUT", "FAIL_OUTPUT", "FAIL_FAULTS"};

static long calls[3];

/* How many bytes a call takes at most, or -1 where it fails. */
static long room(int file, size_t size) {
    long first, last;
    int error;
    calls[file] += 1;
    const char *plan = getenv(names[file]);
    if (!plan || size == 0 || sscanf(plan, "%ld %ld %d", &first, &last, &error) != 3) {
        return (long)size;
    }
    if (calls[file] < first || last < calls[file]) {
        return 1;
    }
    *__errno_location() = error;
    return -1;
}

long read(int file, void *bytes, size_t size) {
    long most = file == 0 ? room(file, size) : (long)size;
    return most < 0 ? -1 : __read(file, bytes, (size_t)most);
}

long write(int file, const void *bytes, size_t size) {
    long most = file == 1 || file == 2 ? room(file, size) : (long)size;
    return most < 0 ? -1 : __write(file, bytes, (size_t)most);
}

__attribute__((destructor)) static void tell(void) {
    const char *name = getenv("CALLS");
    int file = name ? creat(name, 0600) : -1;
    if (file >= 0) {
        dprintf(file, "%ld %ld %ld\n", calls[0], calls[1], calls[2]);
    }
}
