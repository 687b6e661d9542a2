/* The store of the library for C: what each call answers, and that the file is whole after each failure. Linked with -Wl,--wrap for each call that
 * is `wrapped` in rows/c_library.toml, so that one of them can be made to fail. Usage: c_store, in an empty folder. The last line is 'N passed, M
 * failed'. */
#define _GNU_SOURCE 1
#include <oca.h>

#include <dirent.h>
#include <errno.h>
#include <fcntl.h>
#include <signal.h>
#include <stdarg.h>
#include <stdlib.h>
#include <sys/file.h>
#include <sys/resource.h>
#include <sys/stat.h>
#include <sys/wait.h>
#include <unistd.h>

#include "c_checks.h"

/* ---- the calls of the system, one of which may fail ---- */

static const char *fails_in; /* which call fails, */
static int fails_at, fails_with, piece; /* which of them, with what; the most bytes of a read and of a write */
static int seen;
static char calls[1024]; /* those that were made, in order */

static bool fails(const char *call) {
    if (strlen(calls) + strlen(call) + 2 < sizeof calls) strcat(strcat(calls, call), " ");
    if (!fails_in || strcmp(fails_in, call) != 0 || ++seen != fails_at) return false;
    errno = fails_with;
    return true;
}

static void fail(const char *call, int at, int with) {
    fails_in = call;
    fails_at = at;
    fails_with = with;
    seen = 0;
    calls[0] = 0;
}

#define WRAP0(result, name, given, ...) \
    extern result __real_##name given; \
    result __wrap_##name given; \
    result __wrap_##name given { return fails(#name) ? (result)-1 : __real_##name(__VA_ARGS__); }
#ifdef __cplusplus
extern "C" {
#endif
WRAP0(int, flock, (int file, int how), file, how)
WRAP0(int, fstat, (int file, struct stat *found), file, found)
WRAP0(int, fstatat, (int folder, const char *name, struct stat *found, int how), folder, name, found, how)
WRAP0(int, fchown, (int file, uid_t owner, gid_t group), file, owner, group)
WRAP0(int, fchmod, (int file, mode_t mode), file, mode)
WRAP0(int, fsync, (int file), file)
WRAP0(int, renameat, (int from, const char *old, int to, const char *name), from, old, to, name)
WRAP0(int, unlinkat, (int folder, const char *name, int how), folder, name, how)
WRAP0(ssize_t, read, (int file, void *bytes, size_t size), file, bytes, piece && size > (size_t)piece ? (size_t)piece : size)
WRAP0(ssize_t, write, (int file, const void *bytes, size_t size), file, bytes, piece && size > (size_t)piece ? (size_t)piece : size)
extern int __real_close(int file);
int __wrap_close(int file);
int __wrap_close(int file) {
    const int status = __real_close(file);
    return fails("close") ? -1 : status;
}
#define WRAP_OPEN(name, given, ...) \
    extern int __real_##name given; \
    int __wrap_##name given; \
    int __wrap_##name given { \
        va_list more; \
        va_start(more, how); \
        const mode_t mode = how & O_CREAT ? (mode_t)va_arg(more, int) : 0; \
        va_end(more); \
        return fails(#name) ? -1 : __real_##name(__VA_ARGS__, how, mode); \
    }
WRAP_OPEN(open, (const char *path, int how, ...), path)
WRAP_OPEN(openat, (int folder, const char *path, int how, ...), folder, path)
#ifdef __cplusplus
}
#endif

/* ---- what is looked at ---- */

static struct oca_store store = OCA_STORE_INIT;

/* How many descriptors are open. */
static long descriptors(void) {
    DIR *folder = opendir("/proc/self/fd");
    long count = 0;
    while (readdir(folder)) count++;
    closedir(folder);
    return count;
}

static long mode_of(const char *path) {
    struct stat found;
    return lstat(path, &found) ? -1 : (long)(found.st_mode & 07777);
}

static bool is_there(const char *path) { return mode_of(path) >= 0; }

static void put_file(const char *path, const void *bytes, size_t size) {
    FILE *file = fopen(path, "wb");
    if (!file || fwrite(bytes, 1, size, file) != size || fclose(file)) abort();
}

static size_t whole(const char *path, uint8_t *out, size_t room) {
    FILE *file = fopen(path, "rb");
    const size_t got = file ? fread(out, 1, room, file) : 0;
    if (file) fclose(file);
    return got;
}

static enum oca_store_result save(const char *bytes) { return oca_store_save(&store, bytes, strlen(bytes)); }

/* A folder, a FIFO and a symbolic link, to a file and to none, in the place of FILE, FILE.new and FILE.lock. */
static void put_other(const char *path, int kind) {
    const int status = kind == 0 ? mkdir(path, 0755) : kind == 1 ? mkfifo(path, 0644) : symlink(kind == 2 ? "target" : "gone", path);
    if (status) abort();
}

static void take_other(const char *path) {
    if (rmdir(path) && unlink(path)) abort();
}

#include "c_store_calls.h" /* made by c_rows.py of rows/c_store_calls.toml */

int main(void) {
    each();
    return verdict();
}
