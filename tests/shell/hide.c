/* Loaded before the system's library: the name in HIDDEN is told to be missing where a program looks at it, so that it stands for one
   that comes just then. With NO_HARD_LINKS no file gets a second name, as on a file system that has none. */
#define _GNU_SOURCE
#include <dlfcn.h>
#include <errno.h>
#include <stdlib.h>
#include <string.h>
#include <sys/stat.h>
#include <unistd.h>

static int is_hidden(const char *path) {
    const char *hidden = getenv("HIDDEN");
    return hidden && *hidden && strcmp(path, hidden) == 0;
}

int statx(int folder, const char *restrict path, int flags, unsigned mask, struct statx *restrict found) {
    static int (*look)(int, const char *, int, unsigned, struct statx *);
    if (!look)
        look = (int (*)(int, const char *, int, unsigned, struct statx *))dlsym(RTLD_NEXT, "statx");
    if (is_hidden(path)) {
        errno = ENOENT;
        return -1;
    }
    return look(folder, path, flags, mask, found);
}

int link(const char *from, const char *to) {
    static int (*name)(const char *, const char *);
    const char *refused = getenv("NO_HARD_LINKS");
    if (refused && *refused) {
        errno = EPERM;
        return -1;
    }
    if (!name)
        name = (int (*)(const char *, const char *))dlsym(RTLD_NEXT, "link");
    return name(from, to);
}
