/* tests/memory/refuse.c for a program that brings a `malloc` of its own, before which none can be loaded: a trial build, which has a
   checker of memory in it. There `malloc`, `calloc` and `realloc` are jumps of five bytes to what the checker does. Here they are
   turned to what refuses, which goes on to where they led. Where they begin otherwise nothing is turned, and so nothing refused. */

static void *own_malloc(unsigned long), *own_calloc(unsigned long, unsigned long), *own_realloc(void *, unsigned long);

#define __libc_malloc own_malloc
#define __libc_calloc own_calloc
#define __libc_realloc own_realloc
#define malloc refusing_malloc
#define calloc refusing_calloc
#define realloc refusing_realloc
#include "../memory/refuse.c"
#undef malloc
#undef calloc
#undef realloc

void *malloc(size_t), *calloc(size_t, size_t), *realloc(void *, size_t);

enum { MMAP = 9, MPROTECT = 10, ALL_RIGHTS = 7, PRIVATE_AT_A_FREE_PLACE = 0x100022, PAGE = 4096, NEAR = 1 << 30, JUMP = 0xe9, ROOM = 16 };

/* Where the three led. */
static void *(*led_malloc)(size_t);
static void *(*led_calloc)(size_t, size_t);
static void *(*led_realloc)(void *, size_t);

static void *own_malloc(size_t size)
{
    return led_malloc(size);
}

static void *own_calloc(size_t count, size_t size)
{
    return led_calloc(count, size);
}

static void *own_realloc(void *old, size_t size)
{
    return led_realloc(old, size);
}

/* A page that a jump of five bytes from this place reaches. */
static unsigned char *page_near(unsigned char *place)
{
    unsigned char *begin = (unsigned char *)((size_t)place & -(size_t)PAGE);
    for (long far = PAGE; far < NEAR; far += 256 * PAGE) {
        long page = syscall(MMAP, begin + far, PAGE, ALL_RIGHTS, PRIVATE_AT_A_FREE_PLACE, -1, 0);
        if ((unsigned char *)page == begin + far)
            return begin + far;
    }
    stop(FAILED);
}

/* Turns a jump, so that it leads to this place, by a jump that is written into a page near by. Returns where it led. */
static void *turned(unsigned char *jump, unsigned char *page, void *to)
{
    static const unsigned char to_what_follows[] = {0xff, 0x25, 0, 0, 0, 0};
    int far;
    unsigned char *behind = jump + 1 + sizeof far;
    __builtin_memcpy(page, to_what_follows, sizeof to_what_follows);
    __builtin_memcpy(page + sizeof to_what_follows, &to, sizeof to);
    __builtin_memcpy(&far, jump + 1, sizeof far);
    void *led_to = behind + far;
    far = (int)(page - behind);
    if (syscall(MPROTECT, (size_t)jump & -(size_t)PAGE, 2 * PAGE, ALL_RIGHTS))
        stop(FAILED);
    __builtin_memcpy(jump + 1, &far, sizeof far);
    return led_to;
}

__attribute__((constructor)) static void turn(void)
{
    unsigned char *jumps[] = {(unsigned char *)malloc, (unsigned char *)calloc, (unsigned char *)realloc};
    for (int at = 0; at < 3; at++)
        if (*jumps[at] != JUMP)
            return;
    unsigned char *page = page_near(jumps[0]);
    led_malloc = (void *(*)(size_t))turned(jumps[0], page, refusing_malloc);
    led_calloc = (void *(*)(size_t, size_t))turned(jumps[1], page + ROOM, refusing_calloc);
    led_realloc = (void *(*)(void *, size_t))turned(jumps[2], page + 2 * ROOM, refusing_realloc);
}
