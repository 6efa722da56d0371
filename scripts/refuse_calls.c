// Refuses one system call of a program that it is loaded into: the one of the number REFUSE_CALL, counted from 1 in the order in
// which the program makes them. It begins to count when the program first says what a SIGTERM does. Where that call comes, it writes
// the name of the call to the file REFUSE_REPORT. With the number 0 it refuses none, and writes at the end a letter for each call: m
// for one by which Python loads a module, and c for any other. Programs that this one starts run without it. Calls that never fail on an open file, such as fstat and lseek, are not among them.
// scripts/tools_edges.py builds and uses it.
#define _GNU_SOURCE
#include <dirent.h>
#include <dlfcn.h>
#include <errno.h>
#include <fcntl.h>
#include <pthread.h>
#include <signal.h>
#include <stdarg.h>
#include <stdlib.h>
#include <string.h>
#include <sys/mman.h>
#include <sys/stat.h>
#include <unistd.h>

static long wanted, made;
static int counts;
static char report[4096], kinds[1 << 16];

__attribute__((constructor)) static void begin(void) {
    const char *number = getenv("REFUSE_CALL"), *path = getenv("REFUSE_REPORT");
    if (number) wanted = atol(number);
    if (path && strlen(path) < sizeof report) strcpy(report, path);
    unsetenv("REFUSE_CALL");
    unsetenv("REFUSE_REPORT");
    unsetenv("LD_PRELOAD");
}

#define REAL(name) ((__typeof__(&name))dlsym(RTLD_NEXT, #name))

// The report is made by the calls as they are in the system's library.
static void tell(const char *text) {
    int file = REAL(open)(report, O_CREAT | O_WRONLY | O_CLOEXEC, 0600);
    if (file < 0) return;
    if (REAL(write)(file, text, strlen(text)) < 0) abort();
    REAL(close)(file);
}

// Notes of which kind a call is: by its path, and a read or a close by that of the call before.
static void note(long number, const char *name, const char *path) {
    static char kind = 'c';
    if (path) kind = strstr(path, "/python3") || strstr(path, "/safl_") ? 'm' : 'c';
    else if (strcmp(name, "read") && strcmp(name, "close")) kind = 'c';
    if (number < (long)sizeof kinds) kinds[number - 1] = kind;
}

// Whether this call is the one.
static int refuses(const char *name, const char *path, int error) {
    if (!counts) return 0;
    long number = __atomic_add_fetch(&made, 1, __ATOMIC_SEQ_CST);
    if (!wanted) note(number, name, path);
    if (number != wanted) return 0;
    tell(name);
    errno = error;
    return 1;
}

__attribute__((destructor)) static void end(void) {
    if (counts && !wanted) tell(kinds);
}

#define CALL(type, name, error, failed, path, parameters, ...)                                                                    \
    type name parameters {                                                                                                        \
        if (refuses(#name, path, error)) return failed;                                                                           \
        static type(*real) parameters;                                                                                            \
        if (!real) real = (type(*) parameters)dlsym(RTLD_NEXT, #name);                                                            \
        return real(__VA_ARGS__);                                                                                                 \
    }

// What opens a file has a mode only if it may make one; a mode that is not there is passed on unread.
#define OPENS(name, at, ...)                                                                                                      \
    int name(at const char *path, int flags, ...) {                                                                               \
        va_list rest;                                                                                                             \
        va_start(rest, flags);                                                                                                    \
        mode_t mode = flags & (O_CREAT | O_TMPFILE) ? va_arg(rest, mode_t) : 0;                                                   \
        va_end(rest);                                                                                                             \
        if (refuses(#name, path, EMFILE)) return -1;                                                                              \
        return REAL(name)(__VA_ARGS__ path, flags, mode);                                                                         \
    }

#define COMMA ,
OPENS(open, , )
OPENS(open64, , )
OPENS(openat, int folder COMMA, folder COMMA)
OPENS(openat64, int folder COMMA, folder COMMA)
CALL(ssize_t, read, EIO, -1, NULL, (int file, void *to, size_t size), file, to, size)
CALL(ssize_t, write, ENOSPC, -1, NULL, (int file, const void *from, size_t size), file, from, size)
CALL(int, stat, EACCES, -1, path, (const char *path, struct stat *state), path, state)
CALL(int, stat64, EACCES, -1, path, (const char *path, struct stat64 *state), path, state)
CALL(int, lstat, EACCES, -1, path, (const char *path, struct stat *state), path, state)
CALL(int, lstat64, EACCES, -1, path, (const char *path, struct stat64 *state), path, state)
CALL(int, access, EACCES, -1, path, (const char *path, int mode), path, mode)
CALL(ssize_t, readlink, EACCES, -1, path, (const char *path, char *to, size_t size), path, to, size)
CALL(char *, getcwd, ENOENT, NULL, NULL, (char *to, size_t size), to, size)
CALL(DIR *, opendir, EMFILE, NULL, path, (const char *path), path)
CALL(DIR *, fdopendir, ENOMEM, NULL, NULL, (int file), file)
CALL(int, mkdir, ENOSPC, -1, path, (const char *path, mode_t mode), path, mode)
CALL(int, rmdir, EBUSY, -1, path, (const char *path), path)
CALL(int, unlink, EBUSY, -1, path, (const char *path), path)
CALL(int, unlinkat, EBUSY, -1, path, (int folder, const char *path, int flags), folder, path, flags)
CALL(int, rename, EIO, -1, NULL, (const char *from, const char *to), from, to)
CALL(int, chmod, EPERM, -1, path, (const char *path, mode_t mode), path, mode)
CALL(int, symlink, ENOSPC, -1, path, (const char *to, const char *path), to, path)
CALL(int, pipe2, EMFILE, -1, NULL, (int ends[2], int flags), ends, flags)
CALL(int, dup, EMFILE, -1, NULL, (int file), file)
CALL(int, dup2, EMFILE, -1, NULL, (int old, int new), old, new)
CALL(int, execve, ENOMEM, -1, path, (const char *path, char *const *words, char *const *given), path, words, given)
CALL(void *, mmap, ENOMEM, MAP_FAILED, NULL, (void *at, size_t size, int rights, int flags, int file, off_t from), at, size, rights, flags, file, from)
CALL(void *, mmap64, ENOMEM, MAP_FAILED, NULL, (void *at, size_t size, int rights, int flags, int file, off64_t from), at, size, rights, flags, file, from)
CALL(int, pthread_create, EAGAIN, EAGAIN, NULL, (pthread_t *to, const pthread_attr_t *how, void *(*work)(void *), void *given), to, how, work, given)

// A file is closed even where that is said to have failed.
int close(int file) {
    int closed = REAL(close)(file);
    return refuses("close", NULL, EIO) ? -1 : closed;
}

// A new process makes calls of its own, which are not counted. None shares its memory with this one.
pid_t fork(void) {
    if (refuses("fork", NULL, EAGAIN)) return -1;
    pid_t child = REAL(fork)();
    if (child == 0) counts = 0;
    return child;
}

pid_t vfork(void) {
    return fork();
}

int sigaction(int number, const struct sigaction *new, struct sigaction *old) {
    int given = REAL(sigaction)(number, new, old);
    if (number == SIGTERM && new) counts = 1;
    return given;
}
