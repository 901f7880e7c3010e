/* An allocator before the C library's, loaded with LD_PRELOAD, which refuses the request that REFUSE names, and with
   REFUSE_ON each one behind it too, and tells in COUNT_FILE how many came (scripts/refuse-memory). */
#define _GNU_SOURCE
#include <dlfcn.h>
#include <errno.h>
#include <stdlib.h>
#include <stdio.h>
#include <string.h>
#include <unistd.h>

static long count, refused = -2;
static int goes_on;
/* a thread of its own may be in here while another one asks */
static __thread int inside __attribute__((tls_model("initial-exec")));

static int is_refused(void) {
    if (inside) return 0;
    if (refused == -2) {
        const char *text = getenv("REFUSE");
        goes_on = text && getenv("REFUSE_ON");
        refused = text ? atol(text) : -1;
    }
    long number = __atomic_add_fetch(&count, 1, __ATOMIC_SEQ_CST);
    if (refused < 0 || number < refused || (number > refused && !goes_on)) return 0;
    errno = ENOMEM;
    return 1;
}

#define REAL(type, name, ...) \
    static type (*real)(__VA_ARGS__); \
    if (!real) { inside++; real = dlsym(RTLD_NEXT, #name); inside--; }

void *malloc(size_t size) { REAL(void *, malloc, size_t) return is_refused() ? NULL : real(size); }

/* dlsym itself may ask for a little before the real calloc is known */
static char early[4096];
static size_t used;
void *calloc(size_t n, size_t size) {
    static void *(*real)(size_t, size_t);
    static int looking;
    if (!real) {
        if (looking) { char *p = early + used; used += (n * size + 15) & ~15ul; return used <= sizeof early ? p : NULL; }
        looking = 1; inside++; real = dlsym(RTLD_NEXT, "calloc"); inside--; looking = 0;
    }
    return is_refused() ? NULL : real(n, size);
}

void *realloc(void *p, size_t size) { REAL(void *, realloc, void *, size_t) return is_refused() ? NULL : real(p, size); }
void *aligned_alloc(size_t a, size_t size) { REAL(void *, aligned_alloc, size_t, size_t) return is_refused() ? NULL : real(a, size); }
int posix_memalign(void **p, size_t a, size_t size) { REAL(int, posix_memalign, void **, size_t, size_t) return is_refused() ? ENOMEM : real(p, a, size); }

static void tell(void) {
    const char *name = getenv("COUNT_FILE");
    if (!name) return;
    inside++;
    FILE *file = fopen(name, "w");
    if (file) { fprintf(file, "%ld\n", count); fclose(file); }
}

/* a program that may start threads ends by this, and runs no destructors */
void _exit(int status) {
    static void (*real)(int);
    tell();
    inside++;
    real = (void (*)(int))dlsym(RTLD_NEXT, "_exit");
    real(status);
    __builtin_unreachable();
}

__attribute__((destructor)) static void end(void) { tell(); }
