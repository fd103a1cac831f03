/* A malloc that refuses one request for memory, for crates/odb_trials/src/refusals: tests/refusals makes a shared object of this.
 * It is told which by requests of sizes that nobody else asks for: one of ASKED + N bytes has the N-th after it refused, and one of
 * ASKED bytes is refused if a request was since then, and ends that. When the program ends it says how many were refused. */
typedef unsigned long size;

enum { ASKED = 7340032, MOST = 1000000 };

void *__libc_malloc(size bytes);
void *__libc_realloc(void *old, size bytes);
int dprintf(int file, const char *format, ...);
_Noreturn void _Exit(int status);

static size left;    /* how many requests it is to the one that is refused; 0 where none is to be */
static int refused;  /* whether it came */
static size all;     /* how many were refused */

static int is_refused(size bytes) {
    int was = refused;
    if (bytes >= ASKED && bytes <= ASKED + MOST) {
        left = bytes - ASKED;
        refused = 0;
        return was && !left;
    }
    if (!left || --left) {
        return 0;
    }
    all++;
    return refused = 1;
}

void *malloc(size bytes) {
    return is_refused(bytes) ? 0 : __libc_malloc(bytes);
}

void *realloc(void *old, size bytes) {
    return is_refused(bytes) ? 0 : __libc_realloc(old, bytes);
}

__attribute__((destructor)) static void say(void) {
    dprintf(2, "refused %lu\n", all);
}

/* A program that may have threads ends so, and runs no destructor. */
_Noreturn void _exit(int status) {
    say();
    _Exit(status);
}
