/* Preloaded into a program that keeps a spool file: what is written to the files of SPOOL_FILE fails, or can be undone.

   SPOOL_FAULT=N with SPOOL_ERROR=5 (EIO) or 28 (ENOSPC): the N-th write, truncation or fsync of SPOOL_FILE and its log
   fails so, and SPOOL_FIRED is made. SPOOL_ERROR=-1: the N-th such write takes half of its bytes.
   SPOOL_UNDO=PATH: each write since the last fsync of the file is noted in PATH.0 (of SPOOL_FILE) or PATH.1 (of its
   log): 1 of a truncation or else 0, offset, how many bytes, how long the file was, how many bytes stood there, these
   bytes, and the new ones of a write. */
#define _GNU_SOURCE
#include <dlfcn.h>
#include <errno.h>
#include <fcntl.h>
#include <stdio.h>
#include <stdlib.h>
#include <string.h>
#include <sys/stat.h>
#include <sys/types.h>
#include <unistd.h>

#define REAL(type, name, ...) \
    static type (*real)(__VA_ARGS__); \
    if (!real) real = (type (*)(__VA_ARGS__))dlsym(RTLD_NEXT, name)

static long seen;

/* 0 for SPOOL_FILE, 1 for its log, -1 for any other. */
static int which(int fd)
{
    const char *spool = getenv("SPOOL_FILE");
    char link[64], path[4096];
    if (!spool) return -1;
    snprintf(link, sizeof link, "/proc/self/fd/%d", fd);
    ssize_t length = readlink(link, path, sizeof path - 1);
    if (length < 0) return -1;
    path[length] = 0;
    size_t own = strlen(spool);
    if (strncmp(path, spool, own)) return -1;
    if (!path[own]) return 0;
    return strcmp(path + own, "-wal") ? -1 : 1;
}

/* Whether this call is the one that fails; errno is set. */
static int fails(int fd, int half)
{
    const char *at = getenv("SPOOL_FAULT"), *error = getenv("SPOOL_ERROR");
    if (!at || which(fd) < 0 || ++seen != atol(at)) return 0;
    int file = open(getenv("SPOOL_FIRED"), O_CREAT | O_WRONLY, 0600);
    if (file >= 0) close(file);
    errno = atoi(error);
    return errno > 0 ? 1 : half ? 2 : 0;
}

static void note(int fd, off_t offset, size_t count, const void *bytes)
{
    const char *undo = getenv("SPOOL_UNDO");
    int file = which(fd);
    struct stat now;
    if (!undo || file < 0 || fstat(fd, &now)) return;
    char path[4096];
    snprintf(path, sizeof path, "%s.%d", undo, file);
    char *old = malloc(count + 1);
    ssize_t stood = pread(fd, old, count, offset);
    long head[5] = {!bytes, offset, count, now.st_size, stood < 0 ? 0 : stood};
    FILE *out = fopen(path, "ab");
    if (out) {
        fwrite(head, sizeof head, 1, out);
        fwrite(old, head[4], 1, out);
        if (bytes) fwrite(bytes, count, 1, out);
        fclose(out);
    }
    free(old);
}

static void settled(int fd)
{
    const char *undo = getenv("SPOOL_UNDO");
    int file = which(fd);
    if (!undo || file < 0) return;
    char path[4096];
    snprintf(path, sizeof path, "%s.%d", undo, file);
    unlink(path);
}

static ssize_t write_at(int fd, const void *bytes, size_t count, off_t offset)
{
    REAL(ssize_t, "pwrite64", int, const void *, size_t, off_t);
    int how = fails(fd, 1);
    if (how == 1) return -1;
    if (how == 2) count = count / 2;
    note(fd, offset, count, bytes);
    return real(fd, bytes, count, offset);
}

ssize_t pwrite64(int fd, const void *bytes, size_t count, off_t offset) { return write_at(fd, bytes, count, offset); }
ssize_t pwrite(int fd, const void *bytes, size_t count, off_t offset) { return write_at(fd, bytes, count, offset); }

ssize_t write(int fd, const void *bytes, size_t count)
{
    REAL(ssize_t, "write", int, const void *, size_t);
    int how = fails(fd, 1);
    if (how == 1) return -1;
    if (how == 2) count = count / 2;
    if (which(fd) >= 0) note(fd, lseek(fd, 0, SEEK_CUR), count, bytes);
    return real(fd, bytes, count);
}

static int cut_at(int fd, off_t length)
{
    REAL(int, "ftruncate64", int, off_t);
    if (fails(fd, 0) == 1) return -1;
    struct stat now;
    if (which(fd) >= 0 && !fstat(fd, &now)) note(fd, length, length < now.st_size ? now.st_size - length : 0, NULL);
    return real(fd, length);
}

int ftruncate64(int fd, off_t length) { return cut_at(fd, length); }
int ftruncate(int fd, off_t length) { return cut_at(fd, length); }

static int synced(int fd, const char *name)
{
    int (*real)(int) = (int (*)(int))dlsym(RTLD_NEXT, name);
    if (fails(fd, 0) == 1) return -1;
    int result = real(fd);
    if (!result) settled(fd);
    return result;
}

int fsync(int fd) { return synced(fd, "fsync"); }
int fdatasync(int fd) { return synced(fd, "fdatasync"); }
