/* Faults for a program whose files are under test, by LD_PRELOAD: every step that changes or syncs something under one folder is counted from 1,
 * and at one of them the program is killed, stopped, or finds the disk full; or all steps are written to a log.
 *
 * Environment:
 *   FAULTS_UNDER  the folder
 *   FAULTS_KIND   kill: killed just before step FAULTS_AT; torn: a write at that step is half done, then killed; stop: stopped just before it;
 *                 full: from that step on nothing that needs room is done, a write half; log: the steps are appended to FAULTS_LOG
 *   FAULTS_AT     the number of a step
 *   FAULTS_TIGHT  set: the disk is full from the beginning, but for the room that files have; besides FAULTS_KIND
 *   FAULTS_QUICK  set: a sync is a step as any other, and does not wait for the disk; what a sync is good for shows in the log alone
 *   FAULTS_PEAK   a path: at its end the program's peak of memory in KiB is written there
 *   FAULTS_LOG    the log's path. A record of it: a letter, then the path's length (4 bytes), the offset and the length (8 each), the length of the
 *                 data (4), all as this machine has numbers, and the path and the data
 */
#define _GNU_SOURCE
#include <dlfcn.h>
#include <errno.h>
#include <fcntl.h>
#include <limits.h>
#include <signal.h>
#include <stdarg.h>
#include <stdint.h>
#include <stdio.h>
#include <stdlib.h>
#include <string.h>
#include <sys/stat.h>
#include <unistd.h>

enum { CREATE = 'c', WRITE = 'w', LENGTH = 'l', RESERVE = 'r', PUNCH = 'p', SYNC = 's', SYNC_ALL = 'a', UNLINK = 'u', MAKE_FOLDER = 'm', REMOVE_FOLDER = 'd', RENAME = 'n' };

#define NEXT(name) ((__typeof__(&name))dlsym(RTLD_NEXT, #name))

static unsigned long step;

static int under(const char *path) {
    const char *folder = getenv("FAULTS_UNDER");
    return folder && strncmp(path, folder, strlen(folder)) == 0;
}

/* The path of an open file, or of a name, without symbolic links in its folder; empty where it is none of ours. */
static void path_of(int file, char out[PATH_MAX]) {
    char link[64];
    out[0] = 0;
    if (!getenv("FAULTS_UNDER")) return;
    snprintf(link, sizeof link, "/proc/self/fd/%d", file);
    ssize_t length = readlink(link, out, PATH_MAX - 1);
    out[length < 0 ? 0 : length] = 0;
    if (!under(out)) out[0] = 0;
}

/* The path of a name in an open folder. */
static void path_at(int folder, const char *name, char out[PATH_MAX]) {
    char link[64], real[PATH_MAX];
    out[0] = 0;
    if (folder == AT_FDCWD || strchr(name, '/')) return;
    snprintf(link, sizeof link, "/proc/self/fd/%d", folder);
    ssize_t length = readlink(link, real, PATH_MAX - 1);
    if (length < 0) return;
    real[length] = 0;
    if (snprintf(out, PATH_MAX, "%s/%s", real, name) >= PATH_MAX) abort();
    if (!under(out)) out[0] = 0;
}

static void path_named(const char *name, char out[PATH_MAX]) {
    char folder[PATH_MAX];
    const char *slash = strrchr(name, '/');
    snprintf(folder, sizeof folder, "%.*s", slash ? (int)(slash - name) : 1, slash ? name : ".");
    if (slash == name) strcpy(folder, "/");
    out[0] = 0;
    char real[PATH_MAX];
    if (realpath(folder, real) && snprintf(out, PATH_MAX, "%s/%s", real, slash ? slash + 1 : name) >= PATH_MAX) abort();
    if (!under(out)) out[0] = 0;
}

static void put(int kind, const char *path, uint64_t offset, uint64_t length, const void *data, uint32_t count) {
    static int log = -1;
    if (log < 0) log = NEXT(open)(getenv("FAULTS_LOG"), O_WRONLY | O_CREAT | O_APPEND | O_CLOEXEC, 0600);
    uint32_t path_length = strlen(path);
    char *record = malloc(25 + path_length + count);
    record[0] = kind;
    memcpy(record + 1, &path_length, 4);
    memcpy(record + 5, &offset, 8);
    memcpy(record + 13, &length, 8);
    memcpy(record + 21, &count, 4);
    memcpy(record + 25, path, path_length);
    if (count) memcpy(record + 25 + path_length, data, count);
    ssize_t done = NEXT(write)(log, record, 25 + path_length + count);
    if (done < 0) abort();
    free(record);
}

/* What becomes of a step: 0 is done, 1 finds the disk full. Does not come back where the program is killed before it. `torn` is set for a write that is
 * to be half done, and the program killed then. */
static int meets(int kind, const char *path, uint64_t offset, uint64_t length, const void *data, uint32_t count, int *torn) {
    const char *fault = getenv("FAULTS_KIND"), *at = getenv("FAULTS_AT");
    int tight = path[0] && getenv("FAULTS_TIGHT") && (kind == CREATE || kind == WRITE || kind == LENGTH || kind == RESERVE);
    if (!path[0] || !fault) return tight;
    if (!strcmp(fault, "log")) put(kind, path, offset, length, data, count);
    unsigned long wanted = at ? strtoul(at, NULL, 10) : 0;
    step += 1;
    if (!strcmp(fault, "full")) return wanted && step >= wanted && kind != UNLINK && kind != REMOVE_FOLDER && kind != PUNCH;
    if (step != wanted) return tight;
    if (!strcmp(fault, "stop")) raise(SIGSTOP);
    if (!strcmp(fault, "kill")) raise(SIGKILL);
    if (!strcmp(fault, "torn")) {
        if (kind != WRITE) raise(SIGKILL);
        *torn = 1;
    }
    return tight;
}

/* Whether a file has room on the disk up to a place; asked where the disk is full from the beginning. */
static int has_room(int file, uint64_t end) {
    struct stat about;
    return getenv("FAULTS_TIGHT") && !fstat(file, &about) && (uint64_t)about.st_blocks * 512 >= end;
}

static int full(int kind, const char *path, uint64_t offset, uint64_t length) {
    int torn = 0;
    return meets(kind, path, offset, length, NULL, 0, &torn);
}

static int no_room(void) {
    errno = ENOSPC;
    return -1;
}

int openat(int folder, const char *name, int flags, ...) {
    va_list more;
    va_start(more, flags);
    mode_t mode = flags & O_CREAT ? va_arg(more, mode_t) : 0;
    va_end(more);
    char path[PATH_MAX] = "";
    if (flags & O_CREAT && faccessat(folder, name, F_OK, AT_SYMLINK_NOFOLLOW) != 0) path_at(folder, name, path);
    if (full(CREATE, path, 0, 0)) return no_room();
    return NEXT(openat)(folder, name, flags, mode);
}

static int opened(int (*next)(const char *, int, ...), const char *name, int flags, mode_t mode) {
    char path[PATH_MAX] = "";
    if (flags & O_CREAT && access(name, F_OK) != 0) path_named(name, path);
    if (full(CREATE, path, 0, 0)) return no_room();
    return next(name, flags, mode);
}

int open(const char *name, int flags, ...) {
    va_list more;
    va_start(more, flags);
    mode_t mode = flags & O_CREAT ? va_arg(more, mode_t) : 0;
    va_end(more);
    return opened(NEXT(open), name, flags, mode);
}

int open64(const char *name, int flags, ...) {
    va_list more;
    va_start(more, flags);
    mode_t mode = flags & O_CREAT ? va_arg(more, mode_t) : 0;
    va_end(more);
    return opened(NEXT(open64), name, flags, mode);
}

static ssize_t written(ssize_t (*next)(int, const void *, size_t, off64_t), int file, const void *bytes, size_t length, off64_t offset) {
    char path[PATH_MAX];
    int torn = 0;
    path_of(file, path);
    if (meets(WRITE, path, offset, length, bytes, length, &torn) && !has_room(file, offset + length)) {
        if (length < 2) return no_room();
        return next(file, bytes, length / 2, offset);
    }
    if (torn) {
        next(file, bytes, length / 2, offset);
        raise(SIGKILL);
    }
    return next(file, bytes, length, offset);
}

ssize_t pwrite(int file, const void *bytes, size_t length, off_t offset) {
    return written(NEXT(pwrite), file, bytes, length, offset);
}

ssize_t pwrite64(int file, const void *bytes, size_t length, off64_t offset) {
    return written(NEXT(pwrite64), file, bytes, length, offset);
}

/* A program that writes otherwise than by pwrite would not be tested. */
ssize_t write(int file, const void *bytes, size_t length) {
    char path[PATH_MAX];
    path_of(file, path);
    if (path[0]) abort();
    return NEXT(write)(file, bytes, length);
}

/* A length that the file has, or a shorter one, needs no room. */
static int no_room_for_length(int file, off64_t length) {
    char path[PATH_MAX];
    struct stat about;
    path_of(file, path);
    return full(LENGTH, path, 0, length) && !fstat(file, &about) && about.st_size < length && !has_room(file, length);
}

int ftruncate(int file, off_t length) {
    if (no_room_for_length(file, length)) return no_room();
    return NEXT(ftruncate)(file, length);
}

int ftruncate64(int file, off64_t length) {
    if (no_room_for_length(file, length)) return no_room();
    return NEXT(ftruncate64)(file, length);
}

int fallocate(int file, int mode, off_t offset, off_t length) {
    char path[PATH_MAX];
    path_of(file, path);
    if (full(mode & FALLOC_FL_PUNCH_HOLE ? PUNCH : RESERVE, path, offset, length) && !has_room(file, offset + length)) return no_room();
    return NEXT(fallocate)(file, mode, offset, length);
}

static int synced(int (*next)(int), int file) {
    char path[PATH_MAX];
    path_of(file, path);
    if (full(SYNC, path, 0, 0)) return no_room();
    return getenv("FAULTS_QUICK") ? 0 : next(file);
}

int fsync(int file) { return synced(NEXT(fsync), file); }

int fdatasync(int file) { return synced(NEXT(fdatasync), file); }

int syncfs(int file) {
    char path[PATH_MAX];
    path_of(file, path);
    if (full(SYNC_ALL, path, 0, 0)) return no_room();
    return getenv("FAULTS_QUICK") ? 0 : NEXT(syncfs)(file);
}

int unlink(const char *name) {
    char path[PATH_MAX] = "";
    if (access(name, F_OK) == 0) path_named(name, path);
    full(UNLINK, path, 0, 0);
    return NEXT(unlink)(name);
}

int unlinkat(int folder, const char *name, int flags) {
    char path[PATH_MAX] = "";
    if (faccessat(folder, name, F_OK, AT_SYMLINK_NOFOLLOW) == 0) path_at(folder, name, path);
    full(UNLINK, path, 0, 0);
    return NEXT(unlinkat)(folder, name, flags);
}

int renameat(int folder, const char *from, int other, const char *to) {
    char path[PATH_MAX], new_path[PATH_MAX];
    int torn = 0;
    if (folder != other) abort();
    path_at(folder, from, path);
    path_at(other, to, new_path);
    if (meets(RENAME, path, 0, 0, new_path, strlen(new_path), &torn)) return no_room();
    return NEXT(renameat)(folder, from, other, to);
}

int renameat2(int folder, const char *from, int other, const char *to, unsigned flags) {
    char path[PATH_MAX], new_path[PATH_MAX] = "";
    int torn = 0;
    if (folder != other) abort();
    path_at(folder, from, path);
    if (faccessat(other, to, F_OK, AT_SYMLINK_NOFOLLOW) != 0) path_at(other, to, new_path);
    if (meets(RENAME, new_path[0] ? path : "", 0, 0, new_path, strlen(new_path), &torn)) return no_room();
    return NEXT(renameat2)(folder, from, other, to, flags);
}

/* The new name stands as the data of the record; both names are in one folder, or a program is not tested. */
int rename(const char *from, const char *to) {
    char path[PATH_MAX], other[PATH_MAX];
    int torn = 0;
    path_named(from, path);
    path_named(to, other);
    size_t folder = path[0] ? strrchr(path, '/') - path + 1 : 0;
    if (strncmp(path, other, folder) || strchr(other + folder, '/')) abort();
    if (meets(RENAME, path, 0, 0, other, strlen(other), &torn)) return no_room();
    return NEXT(rename)(from, to);
}

int mkdir(const char *name, mode_t mode) {
    char path[PATH_MAX];
    path_named(name, path);
    if (full(MAKE_FOLDER, path, 0, 0)) return no_room();
    return NEXT(mkdir)(name, mode);
}

int mkdirat(int folder, const char *name, mode_t mode) {
    char path[PATH_MAX];
    path_at(folder, name, path);
    if (full(MAKE_FOLDER, path, 0, 0)) return no_room();
    return NEXT(mkdirat)(folder, name, mode);
}

int rmdir(const char *name) {
    char path[PATH_MAX];
    path_named(name, path);
    full(REMOVE_FOLDER, path, 0, 0);
    return NEXT(rmdir)(name);
}

__attribute__((destructor)) static void tell_peak(void) {
    const char *path = getenv("FAULTS_PEAK");
    FILE *about = path ? fopen("/proc/self/status", "r") : NULL;
    if (!about) return;
    char line[256];
    unsigned long peak = 0;
    while (fgets(line, sizeof line, about)) sscanf(line, "VmHWM: %lu", &peak);
    fclose(about);
    int file = NEXT(open)(path, O_WRONLY | O_CREAT | O_TRUNC, 0600);
    dprintf(file, "%lu", peak);
    close(file);
}
