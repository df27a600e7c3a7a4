/*
 * Refuses a program's requests for memory. LD_PRELOAD lays it before the C library, and these variables say what is to
 * be refused; where none is set, nothing is.
 *
 *   REFUSE_AT=N     the Nth request, counted from 1
 *   REFUSE_FROM=N   the Nth request and each one after it
 *   REFUSE_ODDS=N   each request with a chance of one in N
 *   REFUSE_COUNT=F  nothing; the file F gets the number of requests when the program ends
 *   REFUSE_EACH=N N ..   the Nth request, for each of these numbers in a run of its own
 *
 * The runs of the last one are processes that go on from where the program would start, one after the other: so the program is
 * loaded once for all of them. Each reads standard input from its beginning. How a run ends is written to standard
 * output if the run before ended otherwise, or there was none: the byte 0x1e, the number, the status, how many bytes the run
 * wrote to standard output, a newline, these bytes, and those that it wrote to standard error. The status is 0 once all runs
 * were made, however they ended.
 *
 * It needs no header, so that the compiler of the kit can compile it.
 */
typedef unsigned long size;

extern void *__libc_malloc(size bytes);
extern void *__libc_calloc(size count, size bytes);
extern void *__libc_realloc(void *block, size bytes);
extern char *getenv(const char *name);
extern size strtoul(const char *text, char **end, int base);
extern int memcmp(const void *left, const void *right, size bytes);
extern void *memcpy(void *to, const void *from, size bytes);
extern int creat(const char *path, unsigned mode);
extern int dprintf(int file, const char *format, ...);
extern int memfd_create(const char *name, unsigned flags);
extern int ftruncate(int file, long bytes);
extern long lseek(int file, long place, int from);
extern long pread(int file, void *to, size bytes, long place);
extern int dup2(int file, int as);
extern int fork(void);
extern int waitpid(int process, int *status, int options);
extern void _exit(int status);

static size requests, at, from, odds, chance = 1;
static int counts;

static size number_in(const char *name) {
    const char *text = getenv(name);
    return text ? strtoul(text, 0, 10) : 0;
}

/* How a run ended: what it wrote to standard output, and then to standard error. */
static struct ending {
    int status;
    long out, length;
    char text[1 << 16];
} now, before = {-1};

/* Reads what was written to the file behind what was read before. Returns whether all could be read. */
static int take(int written) {
    size room = sizeof now.text - now.length;
    long length = pread(written, now.text + now.length, room, 0);
    if (length < 0 || length == room)
        return 0;
    now.length += length;
    return 1;
}

/* Writes how the run ended, if the one before did not end so. Returns whether what it wrote could be read. */
static int tell(const int *written, int status) {
    now.status = status & 127 ? 128 + (status & 127) : status >> 8 & 255;
    now.length = 0;
    if (!take(written[0]))
        return 0;
    now.out = now.length;
    if (!take(written[1]))
        return 0;
    if (now.status != before.status || now.out != before.out || now.length != before.length ||
        memcmp(now.text, before.text, now.length)) {
        dprintf(1, "\036%lu %d %ld\n%.*s", at, now.status, now.out, (int)now.length, now.text);
        memcpy(&before, &now, sizeof now);
    }
    return 1;
}

/* Returns once in a process for each of the numbers, which `at` is then. */
static void begin_each(const char *numbers) {
    int status, written[] = {memfd_create("out", 0), memfd_create("err", 0)};
    char *rest;
    while ((at = strtoul(numbers, &rest, 10))) {
        numbers = rest;
        lseek(0, 0, 0);
        for (int file = 0; file < 2; file++) {
            lseek(written[file], 0, 0);
            if (ftruncate(written[file], 0))
                _exit(1);
        }
        int process = fork();
        if (process == 0) {
            dup2(written[0], 1);
            dup2(written[1], 2);
            return;
        }
        if (waitpid(process, &status, 0) != process || !tell(written, status))
            _exit(1);
    }
    _exit(0);
}

/* What is requested before the program starts is neither counted nor refused. */
__attribute__((constructor)) static void begin(void) {
    const char *numbers = getenv("REFUSE_EACH");
    at = number_in("REFUSE_AT");
    from = number_in("REFUSE_FROM");
    odds = number_in("REFUSE_ODDS");
    if (numbers)
        begin_each(numbers);
    requests = 0;
    counts = 1;
}

__attribute__((destructor)) static void end(void) {
    const char *path = getenv("REFUSE_COUNT");
    counts = 0;
    if (path)
        dprintf(creat(path, 0644), "%lu\n", requests);
}

static int is_refused(void) {
    if (!counts)
        return 0;
    requests++;
    chance = chance * 6364136223846793005 + 1442695040888963407;
    return requests == at || (from && requests >= from) || (odds && (chance >> 33) % odds == 0);
}

void *malloc(size bytes) {
    return is_refused() ? 0 : __libc_malloc(bytes);
}

void *calloc(size count, size bytes) {
    return is_refused() ? 0 : __libc_calloc(count, bytes);
}

void *realloc(void *block, size bytes) {
    return is_refused() ? 0 : __libc_realloc(block, bytes);
}
