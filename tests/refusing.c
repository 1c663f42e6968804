/* Loaded before the program (LD_PRELOAD). Runs the program again and again; in each run one allocation fails, one read or write fails, or
 * all reads and writes move only few bytes.
 *
 * It reads orders from standard input, each a line of five numbers:
 *
 *   GROWTH    this call of malloc, calloc, realloc, aligned_alloc, memalign and posix_memalign, counted from 1 when main begins,
 *             returns no memory (0: none)
 *   READ      this call of read fails (0: none)
 *   WRITE     this call of write fails (0: none)
 *   PIECE     each read and write moves at most this many bytes (0: as many as asked for)
 *   COUNTED   not 0: at the end the file `counts` has the numbers of allocations, reads and writes
 *
 * For each order the program runs once, from the beginning of main, with empty standard input, and with standard output and standard
 * error in the files stdout and stderr. Then its status, as wait returns it, is printed as a line.
 *
 * It includes no header, so a compiler alone is enough to build it. */
typedef unsigned long size;

extern void *__libc_malloc(size);
extern void *__libc_calloc(size, size);
extern void *__libc_realloc(void *, size);
extern void *__libc_memalign(size, size);
extern int *__errno_location(void);
extern long syscall(long, ...);
extern int fork(void);
extern int waitpid(int, int *, int);
extern unsigned alarm(unsigned);
extern void _exit(int);

enum { READ = 0, WRITE = 1, OPEN = 2, CLOSE = 3, DUP2 = 33, READ_ALONE = 0, CREATE_ANEW = 01101, NO_MEMORY = 12, INPUT_OUTPUT = 5 };
enum { MOST_SECONDS = 60 };

struct calls {
    unsigned long made;
    unsigned long at;
};

static int begun;
static unsigned long piece, counted;
static struct calls growths, reads, writes;

/* The number at a place of a line. Moves the place past the number. */
static unsigned long number(const char **at) {
    unsigned long n = 0;
    while (**at == ' ') ++*at;
    while (**at >= '0' && **at <= '9') n = 10 * n + (unsigned long)(*(*at)++ - '0');
    return n;
}

static char *put(char *end, unsigned long n) {
    char digits[20];
    int count = 0;
    do digits[count++] = (char)('0' + n % 10);
    while (n /= 10);
    while (count) *end++ = digits[--count];
    *end++ = '\n';
    return end;
}

static void stream(int number, const char *name, int how) {
    long file = syscall(OPEN, name, how, 0600);
    syscall(DUP2, file, number);
    syscall(CLOSE, file);
}

static void begin(const char *order) {
    growths.at = number(&order);
    reads.at = number(&order);
    writes.at = number(&order);
    piece = number(&order);
    counted = number(&order);
    stream(0, "/dev/null", READ_ALONE);
    stream(1, "stdout", CREATE_ANEW);
    stream(2, "stderr", CREATE_ANEW);
    alarm(MOST_SECONDS);
    begun = 1;
}

/* Returns only in the process of a run, once for each run. */
__attribute__((constructor)) static void serve(void) {
    char order[120], answer[24];
    for (;;) {
        long length = syscall(READ, 0, order, sizeof order - 1);
        if (length <= 0) _exit(0);
        order[length] = 0;
        if (fork() == 0) {
            begin(order);
            return;
        }
        int status = 0;
        waitpid(-1, &status, 0);
        syscall(WRITE, 1, answer, put(answer, (unsigned long)status) - answer);
    }
}

__attribute__((destructor)) static void tell(void) {
    if (!counted) return;
    char text[80];
    char *end = put(put(put(text, growths.made), reads.made), writes.made);
    long file = syscall(OPEN, "counts", CREATE_ANEW, 0600);
    syscall(WRITE, file, text, end - text);
    syscall(CLOSE, file);
}

/* Whether this call is the one that fails. */
static int is_refused(struct calls *calls, int error) {
    if (!begun || ++calls->made != calls->at) return 0;
    *__errno_location() = error;
    return 1;
}

static size few(size count) { return piece && count > piece ? piece : count; }

void *malloc(size count) { return is_refused(&growths, NO_MEMORY) ? 0 : __libc_malloc(count); }

void *calloc(size count, size each) { return is_refused(&growths, NO_MEMORY) ? 0 : __libc_calloc(count, each); }

void *realloc(void *old, size count) { return is_refused(&growths, NO_MEMORY) ? 0 : __libc_realloc(old, count); }

void *memalign(size line, size count) { return is_refused(&growths, NO_MEMORY) ? 0 : __libc_memalign(line, count); }

void *aligned_alloc(size line, size count) { return memalign(line, count); }

int posix_memalign(void **to, size line, size count) {
    void *room = memalign(line, count);
    if (room) *to = room;
    return room ? 0 : NO_MEMORY;
}

long read(int file, void *to, size count) {
    return is_refused(&reads, INPUT_OUTPUT) ? -1 : syscall(READ, file, to, few(count));
}

long write(int file, const void *from, size count) {
    return is_refused(&writes, INPUT_OUTPUT) ? -1 : syscall(WRITE, file, from, few(count));
}
