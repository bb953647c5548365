// A disk that fails at a chosen call, loaded in front of the C library's calls.
// STOPS_FILE names the file of a database: what counts are the writes, truncations and syncs of each file whose name
// begins so, and of the folder that it stands in. Each is told first, as a line in the file STOPS_TOLD: its number, from 1,
// a letter of its kind, and the file's name. STOPS_AT is the number of the call at which something happens, and STOPS_HOW
// what:
// - before: the process is killed before it;
// - within: it is killed within it, which is behind half of a write, and behind all of what has no halves;
// - once: it fails with EIO, and all others pass;
// - onwards: it fails and each later one, with ENOSPC if it is a write, else with EIO.
#define _GNU_SOURCE
#include <errno.h>
#include <fcntl.h>
#include <signal.h>
#include <stdatomic.h>
#include <stdio.h>
#include <stdlib.h>
#include <string.h>
#include <sys/syscall.h>
#include <unistd.h>

enum how { PASSES, BEFORE, WITHIN, FAILS };

static atomic_long calls;

// The name of the descriptor's file, if it is the database's, its log or their folder.
static const char *name_of(int fd, char *path, size_t size) {
    const char *database = getenv("STOPS_FILE");
    if (!database) return NULL;
    char link[64];
    snprintf(link, sizeof link, "/proc/self/fd/%d", fd);
    ssize_t length = readlink(link, path, size - 1);
    if (length < 0) return NULL;
    path[length] = 0;
    if (strncmp(path, database, strlen(database)) == 0) return strrchr(path, '/') + 1;
    const char *end = strrchr(database, '/');
    int is_folder = end && strlen(path) == (size_t)(end - database) && strncmp(path, database, end - database) == 0;
    return is_folder ? "folder" : NULL;
}

static void tell(long call, char kind, const char *name) {
    const char *told = getenv("STOPS_TOLD");
    if (!told) return;
    int fd = (int)syscall(SYS_openat, AT_FDCWD, told, O_WRONLY | O_CREAT | O_APPEND, 0600);
    if (fd < 0) return;
    char line[300];
    int length = snprintf(line, sizeof line, "%ld %c %s\n", call, kind, name);
    syscall(SYS_write, fd, line, (size_t)length);
    syscall(SYS_close, fd);
}

static void killed(void) {
    syscall(SYS_kill, getpid(), SIGKILL);
    for (;;) pause();
}

// What becomes of a call of this kind.
static enum how turn(char kind, int fd) {
    char path[4096];
    const char *name = name_of(fd, path, sizeof path);
    if (!name) return PASSES;
    long call = atomic_fetch_add(&calls, 1) + 1;
    tell(call, kind, name);
    const char *at = getenv("STOPS_AT");
    const char *how = getenv("STOPS_HOW");
    long chosen = at ? atol(at) : 0;
    if (!how || chosen == 0 || call < chosen) return PASSES;
    if (strcmp(how, "onwards") == 0) return FAILS;
    if (call > chosen) return PASSES;
    if (strcmp(how, "before") == 0) return BEFORE;
    if (strcmp(how, "within") == 0) return WITHIN;
    return strcmp(how, "once") == 0 ? FAILS : PASSES;
}

static int error_of(char kind) {
    const char *how = getenv("STOPS_HOW");
    return kind == 'w' && how && strcmp(how, "onwards") == 0 ? ENOSPC : EIO;
}

static ssize_t put(int fd, const void *bytes, size_t count, off_t at) {
    enum how how = turn('w', fd);
    if (how == BEFORE) killed();
    if (how == FAILS) {
        errno = error_of('w');
        return -1;
    }
    if (how == WITHIN) count /= 2;
    ssize_t done = at < 0 ? syscall(SYS_write, fd, bytes, count) : syscall(SYS_pwrite64, fd, bytes, count, at);
    if (how == WITHIN) killed();
    return done;
}

// A call without halves.
static int whole(char kind, long number, int fd, off_t length) {
    enum how how = turn(kind, fd);
    if (how == BEFORE) killed();
    if (how == FAILS) {
        errno = error_of(kind);
        return -1;
    }
    int done = (int)syscall(number, fd, length);
    if (how == WITHIN) killed();
    return done;
}

ssize_t write(int fd, const void *bytes, size_t count) { return put(fd, bytes, count, -1); }
ssize_t pwrite(int fd, const void *bytes, size_t count, off_t at) { return put(fd, bytes, count, at); }
ssize_t pwrite64(int fd, const void *bytes, size_t count, off_t at) { return put(fd, bytes, count, at); }
int ftruncate(int fd, off_t length) { return whole('t', SYS_ftruncate, fd, length); }
int ftruncate64(int fd, off_t length) { return whole('t', SYS_ftruncate, fd, length); }
int fsync(int fd) { return whole('s', SYS_fsync, fd, 0); }
int fdatasync(int fd) { return whole('s', SYS_fdatasync, fd, 0); }
