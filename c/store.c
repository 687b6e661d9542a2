/* A file that holds what a device keeps over a stop: include/oca.h has its calls. It needs POSIX (openat, renameat, fsync) and flock. It is a
 * part of the library by itself: a program that calls none of it does not link it.
 *
 * The file: 8 bytes that say whose it is, how many bytes were stored and their sum, 8 bytes each, the highest first; and the bytes. */
#define _DEFAULT_SOURCE
#define _POSIX_C_SOURCE 200809L
#include <oca.h>

#include <errno.h>
#include <fcntl.h>
#include <stdio.h>
#include <string.h>
#include <sys/file.h>
#include <sys/stat.h>
#include <sys/types.h>
#include <unistd.h>

enum { HEAD = 24, SUFFIX = 5, ROOM = sizeof ((struct oca_store *)0)->name };

static const char mark[8] = {'O', 'C', 'A', ' ', 'k', 'e', 'p', 't'};

/* ---- what is told of a failure ---- */

static enum oca_store_result told(struct oca_store *store, enum oca_store_result result, const char *call, int error) {
    store->call = call;
    store->error = error;
    return result;
}

static enum oca_store_result done(struct oca_store *store) { return told(store, OCA_STORE_DONE, NULL, 0); }

/* A call of the system failed just now. */
static enum oca_store_result failed(struct oca_store *store, const char *call) { return told(store, OCA_STORE_SYSTEM, call, errno); }

/* ---- names ---- */

/* The name of the file, or of what stands beside it. */
static void name_with(const struct oca_store *store, const char *suffix, char name[ROOM]) {
    const size_t size = strlen(store->name);
    memcpy(name, store->name, size);
    memcpy(name + size, suffix, strlen(suffix) + 1);
}

/* Opens the folder of a path, and notes the name in it. */
static enum oca_store_result find(struct oca_store *store, const char *path) {
    char folder[4096] = ".";
    const char *slash = strrchr(path, '/'), *name = slash ? slash + 1 : path;
    const size_t before = slash ? (size_t)(slash - path) + 1 : 0, size = strlen(name);
    if (size == 0 || size + SUFFIX >= ROOM || before >= sizeof folder) return told(store, OCA_STORE_BAD_PATH, NULL, 0);
    if (before > 0) {
        memcpy(folder, path, before);
        folder[before] = 0;
    }
    memcpy(store->name, name, size + 1);
    store->folder = open(folder, O_RDONLY | O_DIRECTORY | O_CLOEXEC);
    return store->folder < 0 ? failed(store, "open") : done(store);
}

/* Refuses what is there under a name and is no plain file. */
static enum oca_store_result check_plain(struct oca_store *store, const char *suffix) {
    char name[ROOM];
    struct stat found;
    name_with(store, suffix, name);
    if (fstatat(store->folder, name, &found, AT_SYMLINK_NOFOLLOW) == 0) return S_ISREG(found.st_mode) ? done(store) : told(store, OCA_STORE_NO_FILE, NULL, 0);
    return errno == ENOENT ? done(store) : failed(store, "stat");
}

/* Takes the lock beside the file. */
static enum oca_store_result take_lock(struct oca_store *store) {
    char name[ROOM];
    name_with(store, ".lock", name);
    store->lock = openat(store->folder, name, O_RDWR | O_CREAT | O_NOFOLLOW | O_NONBLOCK | O_CLOEXEC, 0644);
    if (store->lock < 0) return failed(store, "open");
    if (flock(store->lock, LOCK_EX | LOCK_NB) == 0) return done(store);
    const enum oca_store_result result = errno == EWOULDBLOCK ? told(store, OCA_STORE_HELD, NULL, 0) : failed(store, "flock");
    close(store->lock);
    return result;
}

enum oca_store_result oca_store_open(const char *path, struct oca_store *store) {
    static const char *const suffixes[] = {"", ".new", ".lock"};
    if (!store || !path) return OCA_STORE_NULL;
    if (store->is_open) return told(store, OCA_STORE_OPEN, NULL, 0);
    enum oca_store_result result = find(store, path);
    if (result != OCA_STORE_DONE) return result;
    for (size_t i = 0; i < 3 && result == OCA_STORE_DONE; i++) result = check_plain(store, suffixes[i]);
    if (result == OCA_STORE_DONE) result = take_lock(store);
    if (result != OCA_STORE_DONE) close(store->folder);
    store->is_open = result == OCA_STORE_DONE;
    return result;
}

void oca_store_close(struct oca_store *store) {
    if (!store || !store->is_open) return;
    close(store->lock);
    close(store->folder);
    store->is_open = false;
}

/* ---- bytes ---- */

static void put_number(uint64_t number, uint8_t out[8]) {
    for (int i = 0; i < 8; i++) out[i] = (uint8_t)(number >> (56 - 8 * i));
}

static uint64_t number_at(const uint8_t in[8]) {
    uint64_t number = 0;
    for (int i = 0; i < 8; i++) number = number << 8 | in[i];
    return number;
}

/* The sum of bytes (FNV-1a, of 64 bits). */
static uint64_t sum_of(const uint8_t *bytes, size_t length) {
    uint64_t sum = UINT64_C(0xcbf29ce484222325);
    for (size_t i = 0; i < length; i++) sum = (sum ^ bytes[i]) * UINT64_C(0x100000001b3);
    return sum;
}

/* Writes all of the bytes, or says that a write failed. */
static bool write_all(int file, const uint8_t *bytes, size_t length) {
    while (length > 0) {
        const ssize_t some = write(file, bytes, length);
        if (some < 0 && errno == EINTR) continue;
        if (some == 0) errno = EIO;
        if (some <= 0) return false;
        bytes += some;
        length -= (size_t)some;
    }
    return true;
}

/* Reads as many bytes as there are up to the room: how many, or -1 where a read failed. */
static ssize_t read_all(int file, uint8_t *bytes, size_t room) {
    size_t got = 0;
    while (got < room) {
        const ssize_t some = read(file, bytes + got, room - got);
        if (some < 0 && errno == EINTR) continue;
        if (some < 0) return -1;
        if (some == 0) break;
        got += (size_t)some;
    }
    return (ssize_t)got;
}

/* ---- saving ---- */

/* Gives the new file the owner and the mode of the old one. */
static enum oca_store_result make_alike(struct oca_store *store, int file, const struct stat *old) {
    struct stat own;
    if (fstat(file, &own)) return failed(store, "fstat");
    if ((own.st_uid != old->st_uid || own.st_gid != old->st_gid) && fchown(file, old->st_uid, old->st_gid)) return failed(store, "fchown");
    return fchmod(file, old->st_mode & 07777) ? failed(store, "fchmod") : done(store);
}

/* Writes the new file, and waits until it is on the disk. */
static enum oca_store_result fill(struct oca_store *store, int file, const struct stat *old, const void *bytes, size_t length) {
    uint8_t head[HEAD];
    const enum oca_store_result alike = old ? make_alike(store, file, old) : done(store);
    if (alike != OCA_STORE_DONE) return alike;
    memcpy(head, mark, sizeof mark);
    put_number(length, head + 8);
    put_number(sum_of((const uint8_t *)bytes, length), head + 16);
    if (!write_all(file, head, sizeof head) || !write_all(file, (const uint8_t *)bytes, length)) return failed(store, "write");
    return fsync(file) ? failed(store, "fsync") : done(store);
}

/* Makes the new file, in the place of what an earlier run left there. */
static enum oca_store_result make_new(struct oca_store *store, const char *fresh, const void *bytes, size_t length) {
    struct stat old;
    const bool has_old = fstatat(store->folder, store->name, &old, AT_SYMLINK_NOFOLLOW) == 0;
    if (!has_old && errno != ENOENT) return failed(store, "stat");
    if (has_old && !S_ISREG(old.st_mode)) return told(store, OCA_STORE_NO_FILE, NULL, 0);
    if (unlinkat(store->folder, fresh, 0) && errno != ENOENT) return failed(store, "unlink");
    const int file = openat(store->folder, fresh, O_WRONLY | O_CREAT | O_EXCL | O_NOFOLLOW | O_CLOEXEC, has_old ? 0600 : 0644);
    if (file < 0) return failed(store, "open");
    const enum oca_store_result result = fill(store, file, has_old ? &old : NULL, bytes, length);
    const bool is_closed = close(file) == 0 || errno == EINTR;
    return result == OCA_STORE_DONE && !is_closed ? failed(store, "close") : result;
}

enum oca_store_result oca_store_save(struct oca_store *store, const void *bytes, size_t length) {
    static const uint8_t none[1] = {0};
    char fresh[ROOM];
    if (!store || (!bytes && length > 0)) return OCA_STORE_NULL;
    if (!store->is_open) return told(store, OCA_STORE_CLOSED, NULL, 0);
    name_with(store, ".new", fresh);
    enum oca_store_result result = make_new(store, fresh, bytes ? bytes : none, length);
    if (result == OCA_STORE_DONE && renameat(store->folder, fresh, store->folder, store->name)) result = failed(store, "rename");
    if (result == OCA_STORE_DONE) return fsync(store->folder) ? failed(store, "fsync") : result;
    unlinkat(store->folder, fresh, 0);
    return result;
}

/* ---- loading ---- */

/* Reads an open file. */
static enum oca_store_result take(struct oca_store *store, int file, uint8_t *out, size_t room, size_t *length) {
    uint8_t head[HEAD] = {0}, more[1];
    struct stat found;
    if (fstat(file, &found)) return failed(store, "fstat");
    if (!S_ISREG(found.st_mode)) return told(store, OCA_STORE_NO_FILE, NULL, 0);
    ssize_t got = read_all(file, head, sizeof head);
    if (got < 0) return failed(store, "read");
    const uint64_t stored = number_at(head + 8);
    if (got < HEAD || memcmp(head, mark, sizeof mark) != 0 || (uint64_t)found.st_size - HEAD != stored) return told(store, OCA_STORE_BROKEN, NULL, 0);
    if (stored > room) {
        *length = (size_t)stored;
        return told(store, OCA_STORE_TOO_SMALL, NULL, 0);
    }
    got = read_all(file, out, (size_t)stored);
    const ssize_t beyond = got < 0 ? -1 : read_all(file, more, 1);
    if (beyond < 0) return failed(store, "read");
    if ((uint64_t)got < stored || beyond > 0 || sum_of(out, (size_t)stored) != number_at(head + 16)) return told(store, OCA_STORE_BROKEN, NULL, 0);
    *length = (size_t)stored;
    return done(store);
}

enum oca_store_result oca_store_load(struct oca_store *store, void *out, size_t room, size_t *length) {
    if (!store || !length || (!out && room > 0)) return OCA_STORE_NULL;
    *length = 0;
    if (!store->is_open) return told(store, OCA_STORE_CLOSED, NULL, 0);
    const int file = openat(store->folder, store->name, O_RDONLY | O_NOFOLLOW | O_NONBLOCK | O_CLOEXEC);
    if (file < 0 && errno == ENOENT) return told(store, OCA_STORE_NOTHING, NULL, 0);
    if (file < 0 && errno == ELOOP) return told(store, OCA_STORE_NO_FILE, NULL, 0);
    if (file < 0) return failed(store, "open");
    const enum oca_store_result result = take(store, file, (uint8_t *)out, room, length);
    close(file);
    return result;
}
