/* Refuses a program what it asks of the system, one request at a time: memory, reads or writes. `refused` beside this file
   compiles it, and loads it into the program by LD_PRELOAD. It needs no header, so that the toolchain's own clang compiles it.

   Requests of one kind are counted from 1, over all threads: for memory the calls of malloc, calloc and realloc. REFUSE says
   what is done, and in which file, by its number, it is told:

   memory FILE FIRST EACH 0   The program runs on with all the memory that it asks for. At its requests from FIRST on a child is
                              forked off, which is refused that request, and ends as it ends. The parent waits for it, tells
                              how it ended, puts the offsets of all files back, and goes on. So each request is refused once,
                              in the very state in which it is made. Behind EACH of them the steps between two grow by a 64th.
   flood FILE FIRST EACH 0    The same, and the child is refused all further requests too.
   reads FILE FIRST EACH N    The same for reads, which fail with error N. Each read and each write moves one byte then.
   writes FILE FIRST EACH N   The same for writes; where N is 0 the write takes no byte.
   one FILE NUMBER 0 0        That request for memory is refused in this process: for a program with threads, which a child
                              does not inherit, or with files that it writes.
   one_write FILE NUMBER 0 N  The same for that write.

   Where REFUSE_BY_LINE stands in the environment a read of standard input moves one byte in any case, so that each line is read
   alone, and answered before the next.

   What is told of a child: its request, the file that it read or wrote, how many bytes stood on standard output when it was
   forked off, its status as waitpid gives it, how many bytes then stood on standard output and on standard error, each as eight
   bytes, and then these bytes. In the end the number of requests is told in the same form, without bytes and with a status that
   no child has. */

typedef unsigned long size_t;
typedef long offset;

void *__libc_malloc(size_t);
void *__libc_calloc(size_t, size_t);
void *__libc_realloc(void *, size_t);
char *getenv(const char *);
unsigned long strtoul(const char *, char **, int);
int strncmp(const char *, const char *, size_t);
long syscall(long, ...);
int fork(void);
int waitpid(int, int *, int);
unsigned alarm(unsigned);
offset lseek(int, offset, int);
int ftruncate(int, offset);
long pread(int, void *, size_t, offset);
int *__errno_location(void);

enum { READ = 0, WRITE = 1, EXIT_GROUP = 231, NO_MEMORY = 12, FROM_START = 0, FROM_HERE = 1, FROM_END = 2 };
enum { FILES = 16, SECONDS = 20, SLOWER = 64, FAILED = 99, ALL_DONE = 1 << 30 };

enum way { NOTHING, MEMORY, FLOOD, ONE, READS, WRITES, ONE_WRITE };

static enum way way;
static int by_line;
static int file;
static size_t first, each;
static int error_number;
static size_t asked;     /* requests so far */
static int refuses_all;  /* in a child of a flood */

static void stop(int status) __attribute__((noreturn));

static void stop(int status)
{
    for (;;)
        syscall(EXIT_GROUP, status);
}

static void tell(const void *bytes, size_t count)
{
    const char *rest = bytes;
    while (count) {
        long some = syscall(WRITE, file, rest, count);
        if (some <= 0)
            stop(FAILED);
        rest += some;
        count -= (size_t)some;
    }
}

/* Tells what stands in a file. */
static void tell_all_of(int shown, size_t count)
{
    static char bytes[65536];
    for (size_t at = 0; at < count;) {
        long some = pread(shown, bytes, sizeof bytes, (offset)at);
        if (some <= 0)
            stop(FAILED);
        tell(bytes, (size_t)some);
        at += (size_t)some;
    }
}

static void tell_end(size_t number, size_t on, size_t before, int status)
{
    int is_child = status != ALL_DONE;
    size_t out = is_child ? (size_t)lseek(1, 0, FROM_END) : 0, error = is_child ? (size_t)lseek(2, 0, FROM_END) : 0;
    size_t told[6] = {number, on, before, (size_t)status, out, error};
    tell(told, sizeof told);
    tell_all_of(1, out);
    tell_all_of(2, error);
}

static enum way way_of(const char *said)
{
    static const char *const words[] = {"", "memory ", "flood ", "one ", "reads ", "writes ", "one_write "};
    for (int at = MEMORY; at <= ONE_WRITE; at++) {
        size_t length = 0;
        while (words[at][length])
            length++;
        if (!strncmp(said, words[at], length))
            return (enum way)at;
    }
    stop(FAILED);
}

__attribute__((constructor)) static void begin(void)
{
    char *said = getenv("REFUSE");
    if (!said)
        return;
    by_line = getenv("REFUSE_BY_LINE") != 0;
    way = way_of(said);
    while (*said && *said != ' ')
        said++;
    file = (int)strtoul(said, &said, 10);
    first = strtoul(said, &said, 10);
    each = strtoul(said, &said, 10);
    error_number = (int)strtoul(said, &said, 10);
}

/* The program's end: it calls _exit, or main returns. */
__attribute__((destructor)) static void end(void)
{
    if (way != NOTHING)
        tell_end(asked, 0, 0, ALL_DONE);
    way = NOTHING;
}

void _exit(int status)
{
    end();
    stop(status);
}

/* Lets a child be refused this request, which is made on a file. True in the child. */
static int refused_in_a_child(size_t number, int on)
{
    offset at[FILES];
    for (int open = 0; open < FILES; open++)
        at[open] = lseek(open, 0, FROM_HERE);
    int child = fork();
    if (child < 0)
        stop(FAILED);
    if (child == 0) {
        refuses_all = way == FLOOD;
        way = NOTHING;
        alarm(SECONDS);
        return 1;
    }
    int status = 0;
    while (waitpid(child, &status, 0) != child)
        ;
    tell_end(number, (size_t)on, (size_t)at[1], status);
    if (ftruncate(1, at[1]) || ftruncate(2, at[2]))
        stop(FAILED);
    for (int open = 0; open < FILES; open++)
        if (at[open] >= 0)
            lseek(open, at[open], FROM_START);
    return 0;
}

/* Whether a request of the kind that is refused is the one. */
static int is_next(int on)
{
    size_t number = __atomic_add_fetch(&asked, 1, __ATOMIC_SEQ_CST);
    if (number != first)
        return 0;
    if (way == ONE || way == ONE_WRITE)
        return 1;
    first += each ? 1 : 1 + number / SLOWER;
    each -= each ? 1 : 0;
    return refused_in_a_child(number, on);
}

static int has_no_memory(void)
{
    int is_asked = way == MEMORY || way == FLOOD || way == ONE;
    if (!refuses_all && !(is_asked && is_next(0)))
        return 0;
    *__errno_location() = NO_MEMORY;
    return 1;
}

void *malloc(size_t size)
{
    return has_no_memory() ? 0 : __libc_malloc(size);
}

void *calloc(size_t count, size_t size)
{
    return has_no_memory() ? 0 : __libc_calloc(count, size);
}

void *realloc(void *old, size_t size)
{
    return has_no_memory() ? 0 : __libc_realloc(old, size);
}

/* A read or a write that fails. */
static long failed(void)
{
    if (error_number == 0)
        return 0;
    *__errno_location() = error_number;
    return -1;
}

static size_t moved(int file_read, size_t count)
{
    return (way == READS || way == WRITES || way == ONE_WRITE || (by_line && file_read == 0)) && count ? 1 : count;
}

long read(int from, void *bytes, size_t count)
{
    return way == READS && is_next(from) ? failed() : syscall(READ, from, bytes, moved(from, count));
}

long write(int to, const void *bytes, size_t count)
{
    return (way == WRITES || way == ONE_WRITE) && is_next(to) ? failed() : syscall(WRITE, to, bytes, moved(to, count));
}

long __write(int to, const void *bytes, size_t count)
{
    return write(to, bytes, count);
}
