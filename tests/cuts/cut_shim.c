/* Records what a bench does to the files of one folder, and disturbs one call of it. This is a
   library that is loaded before the C library (LD_PRELOAD) and replaces its calls on files.
   tests/cuts/bench.py sets the variables:

     CUT_FOLDER  the folder, as realpath gives it; calls on other files are passed on
     CUT_LOG     a descriptor that gets one line for each call, see note()
     CUT_AT      the number of the call that is disturbed, from 1; without it there is none
     CUT_HOW     stop: the process ends with 77 before the call, as a kill would end it
                 hold: the process stops itself before the call until it gets SIGCONT
                 eio, full, busy, intr: the call does nothing and fails with EIO, ENOSPC,
                 EWOULDBLOCK or EINTR
                 part: a write of more than 8 bytes does its front half, any other write or a
                 rename is done as a whole; then the call fails with EIO
                 short: a read or a write does half of what is asked and says so

   No flush reaches the kernel: no power is cut here, so nothing waits for the disk. What a cut
   would leave is worked out from the log, by tests/cuts/disk.py. Calls that are not replaced here
   (writev, mmap and others) are not seen; bench.py compares the folder with the log after every
   run and reports them. fstat and close do not fail here. A process that does not end within 20
   seconds is ended.

     gcc -std=c11 -O2 -shared -fPIC -o target/cut_shim.so tests/cuts/cut_shim.c */
#define _GNU_SOURCE
#include <errno.h>
#include <fcntl.h>
#include <limits.h>
#include <signal.h>
#include <stdarg.h>
#include <stdbool.h>
#include <stdint.h>
#include <stdio.h>
#include <stdlib.h>
#include <string.h>
#include <sys/prctl.h>
#include <sys/stat.h>
#include <sys/syscall.h>
#include <unistd.h>

enum { STOPPED = 77, BROKEN = 99, DESCRIPTORS = 1024, SECONDS = 20, FIELD_MOST = 8 };
enum how { WELL, EIO_, FULL, BUSY, INTR, PART, SHORT, STOP, HOLD };
static const char *const words[] = {"", "eio", "full", "busy", "intr", "part", "short", "stop",
                                    "hold"};

static const char *folder;
static unsigned long count, at;
static enum how how_at;
static int log_fd = -1;
static bool ours[DESCRIPTORS]; /* the descriptors of files in the folder, or of the folder */

static void leave(const char *why)
{
    static const char who[] = "cut_shim: ";
    syscall(SYS_write, 2, who, sizeof who - 1);
    syscall(SYS_write, 2, why, strlen(why));
    syscall(SYS_write, 2, "\n", 1);
    _exit(BROKEN);
}

__attribute__((constructor)) static void begin(void)
{
    const char *log = getenv("CUT_LOG"), *number = getenv("CUT_AT"), *how = getenv("CUT_HOW");
    folder = getenv("CUT_FOLDER");
    if (folder == NULL || log == NULL)
        leave("CUT_FOLDER or CUT_LOG is not set");
    log_fd = atoi(log);
    at = number == NULL ? 0 : strtoul(number, NULL, 10);
    for (enum how i = EIO_; how != NULL && i <= HOLD; i++)
        if (strcmp(how, words[i]) == 0)
            how_at = i;
    if (at != 0 && how_at == WELL)
        leave("CUT_HOW has no such word");
    prctl(PR_SET_PDEATHSIG, SIGKILL);
    alarm(SECONDS);
}

static bool known(int fd)
{
    return fd >= 0 && fd < DESCRIPTORS && ours[fd];
}

/* The name of a file in the folder, "." for the folder itself, NULL for a file elsewhere. */
static const char *local(int at_fd, const char *path, char place[PATH_MAX])
{
    char whole[PATH_MAX], link[64];
    char *slash;
    if (path[0] == '/') {
        snprintf(whole, sizeof whole, "%s", path);
    } else if (at_fd == AT_FDCWD) {
        snprintf(whole, sizeof whole, "./%s", path);
    } else {
        snprintf(link, sizeof link, "/proc/self/fd/%d", at_fd);
        snprintf(whole, sizeof whole, "%s/%s", link, path);
    }
    if (realpath(whole, place) != NULL && strcmp(place, folder) == 0)
        return ".";
    slash = strrchr(whole, '/');
    *slash = 0;
    if (realpath(slash == whole ? "/" : whole, place) == NULL || strcmp(place, folder) != 0)
        return NULL;
    return strcpy(place, slash + 1);
}

/* The length of what the bench has answered so far: its standard output goes to a file. */
static long long said(void)
{
    struct stat is;
    return fstat(1, &is) == 0 && S_ISREG(is.st_mode) ? (long long)is.st_size : 0;
}

static long long said_before;

/* A call begins: it gets its number, and perhaps it is the one that is disturbed. */
static enum how next(void)
{
    said_before = said();
    if (++count != at)
        return WELL;
    if (how_at == STOP)
        _exit(STOPPED);
    if (how_at == HOLD) {
        kill(getpid(), SIGSTOP);
        return WELL;
    }
    return how_at;
}

/* The error of a call that does nothing; 0 if it is to be done. */
static int error_of(enum how how)
{
    return how == EIO_ ? EIO : how == FULL ? ENOSPC : how == BUSY ? EWOULDBLOCK
         : how == INTR ? EINTR : 0;
}

/* A call has ended: a line in the log, written at once, so that two benches can share a log. It
   has the process, the number of the call, its kind, the length of what was answered before it,
   its result (-errno if it failed), whether it was done, and what the call was about. */
static long note(const char *kind, long result, bool done, const char *about, ...)
{
    char *text, *line;
    va_list values;
    int length;
    va_start(values, about);
    if (vasprintf(&text, about, values) < 0)
        leave("no memory");
    va_end(values);
    length = asprintf(&line, "%d %lu %s %lld %ld %d %s\n", (int)getpid(), count, kind,
                      said_before, result, done, text);
    if (length < 0 || syscall(SYS_write, log_fd, line, length) != length)
        leave("the log cannot be written");
    free(line);
    free(text);
    if (result < 0) {
        errno = (int)-result;
        return -1;
    }
    return result;
}

/* What the kernel answered, as -errno if it failed. */
static long kernel(long result)
{
    return result < 0 ? -(long)errno : result;
}

/* Opening and closing */

static int opening(int at_fd, const char *path, int flags, mode_t mode)
{
    char place[PATH_MAX];
    const char *name = local(at_fd, path, place);
    long result;
    if (name == NULL)
        return (int)syscall(SYS_openat, at_fd, path, flags, mode);
    result = -error_of(next());
    if (result == 0)
        result = kernel(syscall(SYS_openat, at_fd, path, flags, mode));
    if (result >= DESCRIPTORS)
        leave("a descriptor is too great");
    if (result >= 0)
        ours[result] = true;
    return (int)note("open", result, result >= 0, "%d %s", flags, name);
}

#define MODE(flags, mode)                                \
    do {                                                 \
        va_list values;                                  \
        va_start(values, flags);                         \
        if ((flags) & (O_CREAT | O_TMPFILE))             \
            mode = (mode_t)va_arg(values, unsigned int); \
        va_end(values);                                  \
    } while (0)

int open(const char *path, int flags, ...)
{
    mode_t mode = 0;
    MODE(flags, mode);
    return opening(AT_FDCWD, path, flags, mode);
}

int open64(const char *path, int flags, ...)
{
    mode_t mode = 0;
    MODE(flags, mode);
    return opening(AT_FDCWD, path, flags, mode);
}

int openat(int at_fd, const char *path, int flags, ...)
{
    mode_t mode = 0;
    MODE(flags, mode);
    return opening(at_fd, path, flags, mode);
}

int openat64(int at_fd, const char *path, int flags, ...)
{
    mode_t mode = 0;
    MODE(flags, mode);
    return opening(at_fd, path, flags, mode);
}

int creat(const char *path, mode_t mode)
{
    return opening(AT_FDCWD, path, O_WRONLY | O_CREAT | O_TRUNC, mode);
}

int creat64(const char *path, mode_t mode)
{
    return creat(path, mode);
}

int close(int fd)
{
    if (!known(fd))
        return (int)syscall(SYS_close, fd);
    next();
    ours[fd] = false;
    return (int)note("close", kernel(syscall(SYS_close, fd)), true, "%d", fd);
}

/* Reading and writing. A place of -1 is the descriptor's own. */

static ssize_t getting(int fd, void *bytes, size_t length, off_t place)
{
    enum how how = next();
    long result = -error_of(how);
    if (how == SHORT && length > 1)
        length /= 2;
    if (result == 0)
        result = kernel(place < 0 ? syscall(SYS_read, fd, bytes, length)
                                  : syscall(SYS_pread64, fd, bytes, length, place));
    return note("read", result, true, "%d", fd);
}

ssize_t read(int fd, void *bytes, size_t length)
{
    return known(fd) ? getting(fd, bytes, length, -1) : syscall(SYS_read, fd, bytes, length);
}

ssize_t pread(int fd, void *bytes, size_t length, off_t place)
{
    return known(fd) ? getting(fd, bytes, length, place)
                     : syscall(SYS_pread64, fd, bytes, length, place);
}

ssize_t pread64(int fd, void *bytes, size_t length, off_t place)
{
    return pread(fd, bytes, length, place);
}

/* The bytes that landed, in hexadecimal. */
static char *hex(const uint8_t *bytes, long length)
{
    static const char digits[] = "0123456789abcdef";
    char *text = malloc(2 * (size_t)(length > 0 ? length : 0) + 1);
    size_t had = 0;
    if (text == NULL)
        leave("no memory");
    for (long i = 0; i < length; i++) {
        text[had++] = digits[bytes[i] >> 4];
        text[had++] = digits[bytes[i] & 15];
    }
    text[had] = 0;
    return text;
}

/* Where a write without a place goes to. */
static off_t place_of(int fd)
{
    struct stat is;
    if ((syscall(SYS_fcntl, fd, F_GETFL) & O_APPEND) != 0 && fstat(fd, &is) == 0)
        return is.st_size;
    return lseek(fd, 0, SEEK_CUR);
}

static ssize_t putting(int fd, const void *bytes, size_t length, off_t place)
{
    enum how how = next();
    long result = -error_of(how), landed = 0;
    off_t begin = place < 0 ? place_of(fd) : place;
    char *text;
    if ((how == SHORT && length > 1) || (how == PART && length > FIELD_MOST))
        length /= 2;
    if (result == 0) {
        result = kernel(place < 0 ? syscall(SYS_write, fd, bytes, length)
                                  : syscall(SYS_pwrite64, fd, bytes, length, place));
        landed = result;
    }
    text = hex(bytes, landed);
    result = note("write", how == PART ? -EIO : result, landed > 0, "%d %lld %s", fd,
                  (long long)begin, text);
    free(text);
    return result;
}

ssize_t write(int fd, const void *bytes, size_t length)
{
    return known(fd) ? putting(fd, bytes, length, -1) : syscall(SYS_write, fd, bytes, length);
}

ssize_t pwrite(int fd, const void *bytes, size_t length, off_t place)
{
    return known(fd) ? putting(fd, bytes, length, place)
                     : syscall(SYS_pwrite64, fd, bytes, length, place);
}

ssize_t pwrite64(int fd, const void *bytes, size_t length, off_t place)
{
    return pwrite(fd, bytes, length, place);
}

int ftruncate(int fd, off_t length)
{
    long result;
    if (!known(fd))
        return (int)syscall(SYS_ftruncate, fd, length);
    result = -error_of(next());
    if (result == 0)
        result = kernel(syscall(SYS_ftruncate, fd, length));
    return (int)note("truncate", result, result == 0, "%d %lld", fd, (long long)length);
}

int ftruncate64(int fd, off_t length)
{
    return ftruncate(fd, length);
}

/* Flushing */

int fsync(int fd)
{
    long result;
    if (!known(fd))
        return (int)syscall(SYS_fsync, fd);
    result = -error_of(next());
    return (int)note("flush", result, result == 0, "%d", fd);
}

int fdatasync(int fd)
{
    return fsync(fd);
}

/* Names */

static int renaming(int from_fd, const char *from, int to_fd, const char *to)
{
    char from_place[PATH_MAX], to_place[PATH_MAX];
    const char *old = local(from_fd, from, from_place), *new = local(to_fd, to, to_place);
    enum how how;
    long result, done;
    if (old == NULL && new == NULL)
        return (int)syscall(SYS_renameat, from_fd, from, to_fd, to);
    if (old == NULL || new == NULL)
        leave("a rename into the folder or out of it");
    how = next();
    result = -error_of(how);
    if (result == 0)
        result = kernel(syscall(SYS_renameat, from_fd, from, to_fd, to));
    done = result == 0;
    return (int)note("rename", how == PART ? -EIO : result, done, "%s %s", old, new);
}

int rename(const char *from, const char *to)
{
    return renaming(AT_FDCWD, from, AT_FDCWD, to);
}

int renameat(int from_fd, const char *from, int to_fd, const char *to)
{
    return renaming(from_fd, from, to_fd, to);
}

int unlink(const char *path)
{
    char place[PATH_MAX];
    const char *name = local(AT_FDCWD, path, place);
    long result;
    if (name == NULL)
        return (int)syscall(SYS_unlinkat, AT_FDCWD, path, 0);
    result = -error_of(next());
    if (result == 0)
        result = kernel(syscall(SYS_unlinkat, AT_FDCWD, path, 0));
    return (int)note("unlink", result, result == 0, "%s", name);
}

/* Locks. They are the kernel's, so two benches meet as they would without this library. */

int flock(int fd, int operation)
{
    long result;
    if (!known(fd))
        return (int)syscall(SYS_flock, fd, operation);
    result = -error_of(next());
    if (result == 0)
        result = kernel(syscall(SYS_flock, fd, operation));
    return (int)note("lock", result, result == 0, "%d", fd);
}

static int controlling(int fd, int command, long value)
{
    bool locks = command == F_SETLK || command == F_SETLKW || command == F_OFD_SETLK ||
                 command == F_OFD_SETLKW;
    long result;
    if (!known(fd) || !locks)
        return (int)syscall(SYS_fcntl, fd, command, value);
    result = -error_of(next());
    if (result == 0)
        result = kernel(syscall(SYS_fcntl, fd, command, value));
    return (int)note("lock", result, result == 0, "%d", fd);
}

int fcntl(int fd, int command, ...)
{
    va_list values;
    va_start(values, command);
    long value = va_arg(values, long);
    va_end(values);
    return controlling(fd, command, value);
}

int fcntl64(int fd, int command, ...)
{
    va_list values;
    va_start(values, command);
    long value = va_arg(values, long);
    va_end(values);
    return controlling(fd, command, value);
}
