// Stands between a program and its calls on files, preloaded by .ci/files and bench/refused_write, which compile it. No
// crate is linked with it.
//
// CALLS_TO=FILE       the lock, the reads, the writes, the advices and the syncs of regular files and folders are told
//                     there, a line each: the call, the file's name without its folder, its place and length, and `failed`
// CALLS_FAIL=N        the Nth sync isn't made, and fails with EIO
// CALLS_REFUSE=N      while the Nth sync is made the file CALLS_IMAGE, on which a file system stands, can't be written: so
//                     the disk refuses what the sync would write
#define _GNU_SOURCE
#include <dlfcn.h>
#include <errno.h>
#include <fcntl.h>
#include <linux/fs.h>
#include <stdio.h>
#include <stdlib.h>
#include <string.h>
#include <sys/file.h>
#include <sys/ioctl.h>
#include <sys/stat.h>
#include <unistd.h>

static int syncs; // so many were asked for

// The real function of this name.
#define REAL(name) ((__typeof__(&name))dlsym(RTLD_NEXT, #name))

// The number that this word of the environment has, 0 where there is none.
static int number(const char *word)
{
    const char *text = getenv(word);
    return text ? atoi(text) : 0;
}

// Tells a call on a regular file or a folder. The program's other descriptors are its streams. A file system that has shut
// itself down answers nothing of its files.
static void tell(const char *call, int fd, long at, long length, int failed)
{
    struct stat found;
    const char *to = getenv("CALLS_TO");
    char link[64], path[4096], line[4352], range[64] = "";
    if (!to || (!fstat(fd, &found) && !S_ISREG(found.st_mode) && !S_ISDIR(found.st_mode)))
        return;
    snprintf(link, sizeof link, "/proc/self/fd/%d", fd);
    ssize_t size = readlink(link, path, sizeof path - 1);
    path[size < 0 ? 0 : size] = 0;
    const char *slash = strrchr(path, '/');
    if (length >= 0)
        snprintf(range, sizeof range, " %ld %ld", at, length);
    size = snprintf(line, sizeof line, "%s %s%s%s\n", call, slash ? slash + 1 : path, range, failed ? " failed" : "");
    int log = open(to, O_WRONLY | O_CREAT | O_APPEND | O_CLOEXEC, 0600);
    if (log < 0 || REAL(write)(log, line, size) != size)
        abort();
    close(log);
}

// Whether the file of the image can be written from now on.
static void let_write(int may)
{
    int flags, image = open(getenv("CALLS_IMAGE"), O_RDONLY | O_CLOEXEC);
    if (image < 0 || ioctl(image, FS_IOC_GETFLAGS, &flags))
        abort();
    flags = may ? flags & ~FS_IMMUTABLE_FL : flags | FS_IMMUTABLE_FL;
    if (ioctl(image, FS_IOC_SETFLAGS, &flags))
        abort();
    close(image);
}

static int sync_by(const char *call, int (*real)(int), int fd)
{
    int answer, error, refused;
    syncs++;
    refused = syncs == number("CALLS_REFUSE");
    if (refused)
        let_write(0);
    answer = syncs == number("CALLS_FAIL") ? (errno = EIO, -1) : real(fd);
    error = errno;
    if (refused)
        let_write(1);
    tell(call, fd, 0, -1, answer);
    errno = error;
    return answer;
}

int fsync(int fd)
{
    return sync_by("fsync", REAL(fsync), fd);
}

int fdatasync(int fd)
{
    return sync_by("fdatasync", REAL(fdatasync), fd);
}

int flock(int fd, int operation)
{
    int answer = REAL(flock)(fd, operation), error = errno;
    tell("flock", fd, 0, -1, answer);
    errno = error;
    return answer;
}

int posix_fadvise(int fd, off_t at, off_t length, int advice)
{
    int answer = REAL(posix_fadvise)(fd, at, length, advice);
    tell(advice == POSIX_FADV_DONTNEED ? "drop" : "advise", fd, at, length, answer);
    return answer;
}

ssize_t pread(int fd, void *into, size_t length, off_t at)
{
    ssize_t answer = REAL(pread)(fd, into, length, at);
    int error = errno;
    tell("read", fd, at, length, answer < 0);
    errno = error;
    return answer;
}

ssize_t pwrite(int fd, const void *from, size_t length, off_t at)
{
    ssize_t answer = REAL(pwrite)(fd, from, length, at);
    int error = errno;
    tell("write", fd, at, length, answer < 0);
    errno = error;
    return answer;
}
