/* Swaps a name inside the program's own calls, as another program might: gcc -shared -fPIC -o swap.so swap.c -ldl
   SWAP_CALL   the call at which it swaps: before fchown, fchmod, fstat, open, create (an open that may make a file)
               or rename, or after stat or lstat
   SWAP_WHEN   at which of these calls that concern the name, counted from 1
   SWAP_NAME   the name that another file takes; it is kept as SWAP_NAME.mine
   SWAP_TO     what takes it: "link PATH", "fifo", "file", or "hard PATH" (a further name of that file); with "touched"
               the file stays, and its time changes at each such call
   Calls by descriptor count when the descriptor is that of the name. */
#define _GNU_SOURCE
#include <dlfcn.h>
#include <fcntl.h>
#include <stdarg.h>
#include <stdio.h>
#include <stdlib.h>
#include <string.h>
#include <sys/stat.h>
#include <sys/time.h>
#include <unistd.h>

static int seen, busy;

static int is_named(int fd)
{
    char path[64], found[4096];
    snprintf(path, sizeof path, "/proc/self/fd/%d", fd);
    ssize_t count = readlink(path, found, sizeof found - 1);
    if (count < 0) return 0;
    found[count] = 0;
    const char *slash = strrchr(found, '/');
    return slash && !strcmp(slash + 1, getenv("SWAP_NAME"));
}

static void swap(const char *call, int concerns)
{
    const char *at = getenv("SWAP_CALL"), *name = getenv("SWAP_NAME"), *to = getenv("SWAP_TO");
    char mine[4096];
    if (busy || !at || strcmp(at, call) || !concerns) return;
    if (!strcmp(to, "touched")) {
        usleep(20000);
        utimes(name, NULL);
        return;
    }
    if (++seen != atoi(getenv("SWAP_WHEN"))) return;
    busy = 1;
    snprintf(mine, sizeof mine, "%s.mine", name);
    int (*rename_it)(const char *, const char *) = dlsym(RTLD_NEXT, "rename");
    rename_it(name, mine);
    if (!strncmp(to, "link ", 5)) { if (symlink(to + 5, name)) _exit(99); }
    else if (!strncmp(to, "hard ", 5)) { if (link(to + 5, name)) _exit(99); }
    else if (!strcmp(to, "fifo")) { if (mkfifo(name, 0666)) _exit(99); }
    else { int fd = creat(name, 0666); if (fd < 0 || write(fd, "other", 5) != 5) _exit(99); close(fd); }
    busy = 0;
}

int fchown(int fd, uid_t owner, gid_t group)
{
    swap("fchown", is_named(fd));
    return ((int (*)(int, uid_t, gid_t)) dlsym(RTLD_NEXT, "fchown"))(fd, owner, group);
}

int fchmod(int fd, mode_t mode)
{
    swap("fchmod", is_named(fd));
    return ((int (*)(int, mode_t)) dlsym(RTLD_NEXT, "fchmod"))(fd, mode);
}

int statx(int folder, const char *path, int flags, unsigned mask, struct statx *data)
{
    int (*look)(int, const char *, int, unsigned, struct statx *) = dlsym(RTLD_NEXT, "statx");
    if (!*path) {
        swap("fstat", is_named(folder));
        return look(folder, path, flags, mask, data);
    }
    int done = look(folder, path, flags, mask, data);
    swap(flags & AT_SYMLINK_NOFOLLOW ? "lstat" : "stat", !strcmp(path, getenv("SWAP_NAME")));
    return done;
}

int open(const char *path, int flags, ...)
{
    va_list more;
    va_start(more, flags);
    mode_t mode = va_arg(more, mode_t);
    va_end(more);
    swap(flags & O_CREAT ? "create" : "open", !strcmp(path, getenv("SWAP_NAME")));
    return ((int (*)(const char *, int, ...)) dlsym(RTLD_NEXT, "open"))(path, flags, mode);
}

int rename(const char *from, const char *to)
{
    swap("rename", !strcmp(from, getenv("SWAP_NAME")));
    return ((int (*)(const char *, const char *)) dlsym(RTLD_NEXT, "rename"))(from, to);
}
