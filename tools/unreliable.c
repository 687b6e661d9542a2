/* A test's layer over the C library, put before it by LD_PRELOAD: it refuses requests for memory, fails or shortens reads of
 * standard input and writes of standard output, interrupts, fails or stalls the calls of sockets, fails the calls by which a file
 * is stored, and sets clocks forward. Numbers count from 1; what is not set does not happen.
 *   REFUSE=N         the request for memory number N is refused        REFUSE_FROM=N  it and every later one
 *   FAIL_READ=N      the read number N fails                           FAIL_WRITE=N   the write number N fails
 *   PIECE=N          reads and writes take at most N bytes             COUNTS=FILE    the five counts go to this file at the end
 *   SIGNALS=N        N signals a second interrupt the process          INTERRUPT=N    N come before each receive and send does anything
 *   FAIL_RECEIVE=N   the first N receives fail with ERRNO              FAIL_SEND=N    the first N sends fail with ERRNO
 *   FAIL_SYNC=N      the fsync number N fails                          GONE=1         no socket can be bound behind the first send
 *   STALL=PORT       a send to this port finds no room: it waits as long as the socket lets it, for ever where it does
 *   SLEPT=N          behind the first send the clock that counts sleep, CLOCK_BOOTTIME, is N seconds ahead, and no other
 *   UNBOOTED=N       the clock that counts sleep can't be read, and the date is N seconds ahead behind the first send
 *   FULL=N           the write number N to what is no standard stream finds no room: the one before it takes half
 *   GRANTED=N        the system says that it grants a send buffer of N bytes, where it was asked for one; below 0 it does not tell
 *   ASKED=FILE       a line goes to this file for each time that a send buffer is asked for, with the number of bytes
 *   CALLS=FILE       a line goes to this file for each fsync and each rename, as it is made, with the names of the files
 *   REFUSING=FILE    the words 'STEP N' of this file, which may change meanwhile: each call of this step fails with the error number
 *                    N. The steps: `create` (a file is made anew), `mode`, `write` and `sync` (of a file), `rename`, `folder` (it
 *                    is opened), `sync-folder` and `lock`. `short N`: a write to a file takes at most N bytes. `slow N`: each
 *                    fsync takes N milliseconds more
 *   TOLD=FILE        a line goes to this file for each call that is refused so (`refused STEP`), for each fsync of a folder that
 *                    was done (`stored`), and for each datagram that is sent (`sent PORT HANDLE`, as it begins)
 *   AHEAD=FILE       all clocks are ahead by the milliseconds that the first 8 bytes of this file say, an integer of this machine,
 *                    which may change meanwhile: so time passes for a program that stands still
 * A send is the first that is taken. */
#define _GNU_SOURCE
#include <dlfcn.h>
#include <errno.h>
#include <fcntl.h>
#include <netinet/in.h>
#include <signal.h>
#include <stdarg.h>
#include <stdint.h>
#include <stdio.h>
#include <stdlib.h>
#include <string.h>
#include <sys/file.h>
#include <sys/mman.h>
#include <sys/socket.h>
#include <sys/stat.h>
#include <sys/syscall.h>
#include <sys/time.h>
#include <time.h>
#include <unistd.h>

/* What is set by a number. */
#define SETTINGS(OF) OF(REFUSE) OF(REFUSE_FROM) OF(FAIL_READ) OF(FAIL_WRITE) OF(PIECE) OF(SIGNALS) OF(INTERRUPT) OF(FAIL_RECEIVE) OF(FAIL_SEND) \
    OF(ERRNO) OF(STALL) OF(SLEPT) OF(UNBOOTED) OF(FAIL_SYNC) OF(GRANTED) OF(FULL) OF(GONE)
#define DECLARE_SETTING(name) static long name;
#define READ_SETTING(name) name = getenv(#name) ? atol(getenv(#name)) : 0;
/* The call of this name that this layer stands before: it is looked for once. */
#define REAL(name) ({ static __typeof__(name) *real; real ? real : (real = dlsym(RTLD_NEXT, #name)); })

SETTINGS(DECLARE_SETTING)
static long requests, reads, writes, receives, sends, interrupted, syncs, kept_writes;
static int started, has_sent, asked = -1; /* the socket for which a send buffer was asked last */
static volatile int64_t *ahead;

static void on_signal(int number) { (void)number; }

/* So many signals a second, none of which restarts a system call. */
static void send_signals(long a_second) {
    struct sigaction action = {.sa_handler = on_signal};
    struct itimerval every = {{0, 1000000 / a_second}, {0, 1000000 / a_second}};
    sigaction(SIGALRM, &action, NULL);
    setitimer(ITIMER_REAL, &every, NULL);
}

/* The files of the layer itself are opened, read and written past it. */
static int past(const char *setting, int flags) {
    const char *path = getenv(setting);
    return path ? syscall(SYS_openat, AT_FDCWD, path, flags | O_CLOEXEC, 0600) : -1;
}

static void tell(const char *setting, const char *format, ...) {
    char line[8300];
    va_list words;
    int file = past(setting, O_WRONLY | O_CREAT | O_APPEND);
    if (file < 0) return;
    va_start(words, format);
    int length = vsnprintf(line, sizeof line, format, words);
    va_end(words);
    if (syscall(SYS_write, file, line, length) < 0) abort();
    syscall(SYS_close, file);
}

/* The number that stands behind this step now; 0 if another one, or none, is named. */
static int said(const char *step) {
    char text[64], name[32];
    int number = 0, file = past("REFUSING", O_RDONLY);
    if (file < 0) return 0;
    long length = syscall(SYS_read, file, text, sizeof text - 1);
    syscall(SYS_close, file);
    text[length > 0 ? length : 0] = 0;
    return sscanf(text, "%31s %d", name, &number) == 2 && strcmp(name, step) == 0 ? number : 0;
}

/* Whether a call fails: with this error, if there is one. */
static int fails(int error) {
    if (error) errno = error;
    return error != 0;
}

static int step_fails(const char *step) {
    int error = said(step);
    if (error) tell("TOLD", "refused %s\n", step);
    return fails(error);
}

static mode_t kind_of(int file) {
    struct stat found;
    return fstat(file, &found) == 0 ? found.st_mode & S_IFMT : 0;
}

__attribute__((constructor)) static void start(void) {
    SETTINGS(READ_SETTING)
    if (getenv("AHEAD")) ahead = mmap(NULL, sizeof *ahead, PROT_READ, MAP_SHARED, past("AHEAD", O_RDONLY), 0);
    if (ahead == MAP_FAILED) abort();
    if (SIGNALS) send_signals(SIGNALS);
    syscall(SYS_close, past("COUNTS", O_WRONLY | O_CREAT | O_TRUNC));
    started = 1;
}

__attribute__((destructor)) static void finish(void) {
    tell("COUNTS", "%ld %ld %ld %ld %ld\n", requests, reads, writes, receives, sends);
}

static int is_refused(void) {
    if (!started) return 0;
    requests++;
    return fails(requests == REFUSE || (REFUSE_FROM && requests >= REFUSE_FROM) ? ENOMEM : 0);
}

void *malloc(size_t size) {
    return is_refused() ? NULL : REAL(malloc)(size);
}

void *realloc(void *old, size_t size) {
    return is_refused() ? NULL : REAL(realloc)(old, size);
}

static size_t at_most(size_t size, long most) { return most && size > (size_t)most ? (size_t)most : size; }

ssize_t read(int file, void *bytes, size_t size) {
    if (file == 0 && fails(++reads == FAIL_READ ? EIO : 0)) return -1;
    return REAL(read)(file, bytes, file == 0 ? at_most(size, PIECE) : size);
}

ssize_t write(int file, const void *bytes, size_t size) {
    if (file == 1) {
        if (fails(++writes == FAIL_WRITE ? EIO : 0)) return -1;
        size = at_most(size, PIECE);
    }
    if (file > 2 && fails(++kept_writes == FULL ? ENOSPC : 0)) return -1;
    if (file > 2 && kept_writes + 1 == FULL) size = size / 2;
    if (getenv("REFUSING") && kind_of(file) == S_IFREG) {
        if (step_fails("write")) return -1;
        size = at_most(size, said("short"));
    }
    return REAL(write)(file, bytes, size);
}

ssize_t __write(int file, const void *bytes, size_t size) { return write(file, bytes, size); }

/* Whether a signal comes in place of the call. */
static int is_interrupted(void) {
    interrupted = interrupted < INTERRUPT ? interrupted + 1 : 0;
    return fails(interrupted ? EINTR : 0);
}

ssize_t recvfrom(int file, void *bytes, size_t size, int flags, struct sockaddr *from, socklen_t *length) {
    if (is_interrupted() || fails(++receives <= FAIL_RECEIVE ? ERRNO : 0)) return -1;
    return REAL(recvfrom)(file, bytes, size, flags, from, length);
}

/* What the system does with a send that finds no room. */
static ssize_t wait_for_room(int file, int flags) {
    struct timeval wait = {0, 0};
    socklen_t length = sizeof wait;
    getsockopt(file, SOL_SOCKET, SO_SNDTIMEO, &wait, &length);
    int never_ends = wait.tv_sec == 0 && wait.tv_usec == 0;
    struct timespec time = {never_ends ? 3600 : wait.tv_sec, wait.tv_usec * 1000};
    int waits = !(flags & MSG_DONTWAIT) && !(fcntl(file, F_GETFL) & O_NONBLOCK);
    errno = waits && nanosleep(&time, NULL) ? EINTR : EAGAIN;
    return -1;
}

ssize_t sendto(int file, const void *bytes, size_t size, int flags, const struct sockaddr *to, socklen_t length) {
    const int port = to && to->sa_family == AF_INET ? ntohs(((const struct sockaddr_in *)to)->sin_port) : 0;
    if (is_interrupted() || fails(++sends <= FAIL_SEND ? ERRNO : 0)) return -1;
    if (STALL && port == STALL) return wait_for_room(file, flags);
    if (port && size >= 18) {
        uint32_t handle;
        memcpy(&handle, (const char *)bytes + 14, 4);
        tell("TOLD", "sent %d %u\n", port, ntohl(handle));
    }
    ssize_t taken = REAL(sendto)(file, bytes, size, flags, to, length);
    has_sent = has_sent || taken >= 0;
    return taken;
}

int bind(int file, const struct sockaddr *to, socklen_t length) {
    return fails(GONE && has_sent ? EADDRNOTAVAIL : 0) ? -1 : REAL(bind)(file, to, length);
}

int clock_gettime(clockid_t clock, struct timespec *time) {
    if (fails(clock == CLOCK_BOOTTIME && UNBOOTED ? EINVAL : 0) || REAL(clock_gettime)(clock, time)) return -1;
    if (has_sent) time->tv_sec += clock == CLOCK_REALTIME ? UNBOOTED : clock == CLOCK_BOOTTIME ? SLEPT : 0;
    if (ahead) {
        time->tv_nsec += *ahead % 1000 * 1000000;
        time->tv_sec += *ahead / 1000 + time->tv_nsec / 1000000000;
        time->tv_nsec %= 1000000000;
    }
    return 0;
}

int open(const char *path, int flags, ...) {
    struct stat found;
    va_list rest;
    va_start(rest, flags);
    mode_t mode = flags & O_CREAT ? va_arg(rest, mode_t) : 0;
    va_end(rest);
    if (flags & O_EXCL && step_fails("create")) return -1;
    if (getenv("REFUSING") && stat(path, &found) == 0 && S_ISDIR(found.st_mode) && step_fails("folder")) return -1;
    return REAL(open)(path, flags, mode);
}

int fchmod(int file, mode_t mode) { return step_fails("mode") ? -1 : REAL(fchmod)(file, mode); }

int flock(int file, int how) { return step_fails("lock") ? -1 : REAL(flock)(file, how); }

/* Told with the file's name. */
int fsync(int file) {
    char at[32], name[4096];
    snprintf(at, sizeof at, "/proc/self/fd/%d", file);
    ssize_t length = readlink(at, name, sizeof name - 1);
    tell("CALLS", "fsync %.*s\n", length > 0 ? (int)length : 0, name);
    const long more = said("slow");
    const int is_folder = kind_of(file) == S_IFDIR;
    struct timespec time = {more / 1000, more % 1000 * 1000000};
    if (more) nanosleep(&time, NULL);
    if (fails(++syncs == FAIL_SYNC ? EIO : 0) || step_fails(is_folder ? "sync-folder" : "sync")) return -1;
    int status = REAL(fsync)(file);
    if (is_folder && status == 0) tell("TOLD", "stored\n");
    return status;
}

int renameat(int from_folder, const char *from, int to_folder, const char *to) {
    tell("CALLS", "rename %.4000s %.4000s\n", from, to);
    return step_fails("rename") ? -1 : REAL(renameat)(from_folder, from, to_folder, to);
}

int rename(const char *from, const char *to) { return renameat(AT_FDCWD, from, AT_FDCWD, to); }

int setsockopt(int file, int level, int name, const void *value, socklen_t length) {
    if (level == SOL_SOCKET && name == SO_SNDBUF) {
        tell("ASKED", "%d\n", *(const int *)value);
        asked = file;
    }
    return REAL(setsockopt)(file, level, name, value, length);
}

int getsockopt(int file, int level, int name, void *value, socklen_t *length) {
    if (!getenv("GRANTED") || level != SOL_SOCKET || name != SO_SNDBUF || file != asked)
        return REAL(getsockopt)(file, level, name, value, length);
    if (fails(GRANTED < 0 ? ENOBUFS : 0)) return -1;
    *(int *)value = GRANTED;
    return 0;
}
