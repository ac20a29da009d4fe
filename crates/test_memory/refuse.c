// Preloaded into a program, this refuses it one request for memory: that of the number in REFUSED_REQUEST, from 1. It then writes
// the line `request refused` to standard error. All other requests go to the C library. It needs no header.
typedef __SIZE_TYPE__ size_t;

extern void *__libc_malloc(size_t size);
extern void *__libc_realloc(void *block, size_t size);
extern char *getenv(const char *name);
extern unsigned long strtoul(const char *digits, char **end, int base);
extern __PTRDIFF_TYPE__ write(int file, const void *bytes, size_t count);

static unsigned long requests;
static unsigned long refused;

// Runs before the program does, and forgets what was requested until then.
__attribute__((constructor)) static void begin(void) {
    const char *number = getenv("REFUSED_REQUEST");
    refused = number ? strtoul(number, 0, 10) : 0;
    __atomic_store_n(&requests, 0, __ATOMIC_SEQ_CST);
}

static int is_refused(void) {
    static const char line[] = "request refused\n";
    if (refused == 0 || __atomic_add_fetch(&requests, 1, __ATOMIC_SEQ_CST) != refused)
        return 0;
    (void)!write(2, line, sizeof line - 1);
    return 1;
}

void *malloc(size_t size) {
    return is_refused() ? 0 : __libc_malloc(size);
}

void *realloc(void *block, size_t size) {
    return is_refused() ? 0 : __libc_realloc(block, size);
}
