/* A bench that keeps its labels in a file and may lose its power at any moment. It takes commands
   from standard input, one in a line, and answers each with one line or more:

     store LABEL RECORD     stores a record number under a label; 0 deletes the label
     look LABEL             the label's record number
     count                  the number of labels
     list                   every label with its record number, in order

   From the repository's root, after `tools/build trieff`:

     gcc -std=c11 -O2 -Iinclude -o target/bench-file examples/bench_file.c \
         target/staticlib/libtrieff.a
     printf '%s\n' 'store B04-117-2 2402' list | target/bench-file target/labels.trieff

   What it keeps to:
   - One bench at a time. The lock is on a file of its own, which is never removed. It is taken
     before anything is read or made, and held until the program ends.
   - Every start reads the file, mends the image in memory, and writes all of it to a new file,
     which then takes the name. Nothing is answered before that is flushed. What was read may have
     been in the computer's memory alone: written by a bench that was stopped before its flush, or
     by one whose flush failed. A cut at any step leaves the old file or the new one. (So the file
     has the rights of a new one, and the name is not a link to a file elsewhere.)
   - A store is answered after its last flush. So no store that was answered is lost.
   - After a write or a flush that failed, nothing more is stored or answered. The bench stops, and
     may be started again at once.

   What it depends on: the system writes the few bytes of a field whole or not at all. So does the
   disk with a sector, and it leaves the neighbours as they are. A flush returns when all is safe
   from a power cut, or fails. A rename leaves the old file or the new one under the name. In this
   image no field lies across the end of a sector: a static assertion says so. With D = 8, for
   record numbers of more than four bytes, that needs another alphabet: bench.c has one. */
#define _DEFAULT_SOURCE
#include "trieff.h"

#include <errno.h>
#include <fcntl.h>
#include <libgen.h>
#include <stdarg.h>
#include <stdio.h>
#include <stdlib.h>
#include <string.h>
#include <sys/file.h>
#include <sys/stat.h>
#include <unistd.h>

/* 16 letters, links of 2 bytes, data of 4, labels of 1 to 64 letters, room for 1,024 nodes of 36
   bytes. */
enum { N = 16, A = 2, D = 4, MIN = 1, MAX = 64, NODES = 1024, F = 16 };
static const char alphabet[] = "0123456789ABCDE-";
_Static_assert(sizeof alphabet - 1 == F, "the alphabet's bytes");
_Static_assert(TRIEFF_FIELDS_WHOLE(N, A, D, F), "no field lies across the end of a sector");

static uint8_t image[TRIEFF_LENGTH(NODES, N, A, D, F)];
static uint32_t work[NODES];
static uint32_t writes[TRIEFF_WRITES_LEN];

#define TEXT(s) (const uint8_t *)(s), strlen(s)
#define ALL(array) (array), sizeof(array) / sizeof *(array)

static const char *name;    /* of the file */
static int file;            /* open for writing */
static const char *storing; /* the label whose writes have begun and are not yet flushed */

/* Stops the bench, with a sentence for the person at it. */
_Noreturn static void stop(const char *why, ...)
{
    va_list values;
    fflush(stdout);
    fprintf(stderr, "bench_file: %s: ", name);
    va_start(values, why);
    vfprintf(stderr, why, values);
    va_end(values);
    fprintf(stderr, "\n");
    exit(1);
}

/* After a failed write or flush nobody knows which bytes are on the disk. What is read back may be
   in memory alone, and the next flush may answer that all is well. So nothing goes on from here.
   The next start writes anew all that it reads. */
_Noreturn static void disk_failed(const char *call)
{
    const char *what = errno == ENOSPC ? "the disk is full"
                       : errno == EIO  ? "the disk failed"
                                       : "it cannot be used";
    const char *reason = strerror(errno);
    if (storing != NULL)
        stop("%s (%s: %s). %s may be stored or not: start again and look it up", what, call,
             reason, storing);
    stop("%s (%s: %s). What was answered is stored: start again", what, call, reason);
}

/* Writes all the bytes to the file. A short write is no failure: the rest follows at once. */
static void put(const uint8_t *bytes, size_t length, size_t place)
{
    while (length > 0) {
        ssize_t written = pwrite(file, bytes, length, (off_t)place);
        if (written == 0)
            errno = ENOSPC;
        if (written < 0 && errno == EINTR)
            continue;
        if (written <= 0)
            disk_failed("pwrite");
        bytes += written;
        length -= (size_t)written;
        place += (size_t)written;
    }
}

static void flush(int fd, int (*sync)(int))
{
    while (sync(fd) != 0)
        if (errno != EINTR)
            disk_failed("flush");
}

/* The file's name with an ending. */
static char *named(const char *ending)
{
    static char whole[4096];
    int length = snprintf(whole, sizeof whole, "%s%s", name, ending);
    if (length < 0 || (size_t)length >= sizeof whole)
        stop("its name is too long");
    return whole;
}

/* The descriptor; -1 if there is no such file. */
static int opened(const char *path, int flags)
{
    int fd;
    do
        fd = open(path, flags | O_CLOEXEC, 0666);
    while (fd < 0 && errno == EINTR);
    if (fd < 0 && (errno != ENOENT || (flags & O_CREAT) != 0))
        disk_failed("open");
    return fd;
}

/* Standard streams that are closed are opened, so that no file gets the number of one. */
static void open_streams(void)
{
    int fd;
    do
        fd = open("/dev/null", O_RDWR | O_CLOEXEC);
    while (fd >= 0 && fd <= STDERR_FILENO);
    close(fd);
}

/* The descriptor stays open, and the lock with it, until the program ends. */
static void lock(void)
{
    int fd = opened(named(".lock"), O_RDWR | O_CREAT);
    while (flock(fd, LOCK_EX | LOCK_NB) != 0) {
        if (errno == EWOULDBLOCK)
            stop("another bench has it open. Use that bench, or end it first");
        if (errno != EINTR)
            disk_failed("flock");
    }
}

/* Reads the file into memory, which holds a fresh image. If there is no file, or an empty one, the
   fresh image stays. Head and alphabet, except G, must be those of this bench. */
static void load(void)
{
    uint8_t head[TRIEFF_IMAGE_LEAST + F];
    struct stat is;
    size_t had = 0;
    int fd = opened(name, O_RDONLY);
    if (fd < 0)
        return;
    if (fstat(fd, &is) != 0)
        disk_failed("fstat");
    if (is.st_size != 0 && is.st_size != (off_t)sizeof image)
        stop("it has %lld bytes, an image of this bench has %zu", (long long)is.st_size,
             sizeof image);
    memcpy(head, image, sizeof head);
    while (had < (size_t)is.st_size) {
        ssize_t more = pread(fd, image + had, sizeof image - had, (off_t)had);
        if (more < 0 && errno != EINTR)
            disk_failed("pread");
        if (more == 0)
            stop("it ends after %zu bytes", had);
        if (more > 0)
            had += (size_t)more;
    }
    close(fd);
    if (memcmp(head + 4, image + 4, sizeof head - 4) != 0)
        stop("it is no image of this bench");
}

/* Writes the image to a new file, which takes the name when all of it is flushed. The name is in
   the folder, so the folder is flushed too: without that a cut could bring the old file back. */
static void save(void)
{
    int folder = opened(dirname(named("")), O_RDONLY | O_DIRECTORY);
    file = opened(named(".new"), O_RDWR | O_CREAT | O_TRUNC);
    put(ALL(image), 0);
    flush(file, fsync);
    if (rename(named(".new"), name) != 0)
        disk_failed("rename");
    flush(folder, fsync);
    close(folder);
}

static void start(void)
{
    uint8_t g[4];
    trieff_answer heard = trieff_make(ALL(image), N, A, D, TEXT(alphabet), MIN, MAX);
    if (heard.number != TRIEFF_DONE)
        stop("make: refused %u: %s", (unsigned)heard.number, trieff_text(heard.number));
    lock();
    load();
    memcpy(g, image, sizeof g);
    heard = trieff_mend(ALL(image), ALL(work));
    if (heard.number != TRIEFF_DONE)
        stop("refused %u at %u: %s. Put the copy in its place", (unsigned)heard.number,
             (unsigned)heard.place, trieff_text(heard.number));
    save();
    if (memcmp(g, image, sizeof g) != 0)
        fprintf(stderr, "bench_file: %s: mended; the last store was cut off\n", name);
}

static void refused(const char *asked, trieff_answer heard)
{
    printf("%s: refused %u at %u: %s\n", asked, (unsigned)heard.number, (unsigned)heard.place,
           trieff_text(heard.number));
}

/* The library stores in memory. Then the list of writes is carried out in the file: the new nodes,
   flush, G, flush, the link, flush; or the data field, flush. So each of the last three writes has
   its flush. */
static void store(const char *label, uint32_t record)
{
    trieff_answer heard =
        trieff_store_text_writes(ALL(image), ALL(work), TEXT(label), record, writes);
    if (heard.number != TRIEFF_DONE) {
        refused(label, heard);
        return;
    }
    storing = label;
    for (uint32_t i = 0; i < heard.length; i++) {
        put(image + writes[2 * i], writes[2 * i + 1], writes[2 * i]);
        if (i + 3 >= heard.length)
            flush(file, fdatasync);
    }
    storing = NULL;
    printf("%s = %u: change %d, writes %u\n", label, (unsigned)record, (int)heard.change,
           (unsigned)heard.length);
}

static void look_up(const char *label)
{
    trieff_answer heard = trieff_look_up_text(ALL(image), TEXT(label));
    if (heard.number != TRIEFF_DONE)
        refused(label, heard);
    else if (heard.value == 0)
        printf("%s: absent\n", label);
    else
        printf("%s: record %llu\n", label, (unsigned long long)heard.value);
}

static void count(void)
{
    trieff_answer heard = trieff_count(ALL(image), ALL(work));
    if (heard.number != TRIEFF_DONE)
        refused("count", heard);
    else
        printf("labels: %llu\n", (unsigned long long)heard.value);
}

static void list(void)
{
    uint8_t last[MAX] = {0}, key[MAX];
    trieff_answer heard = trieff_next_key(ALL(image), ALL(work), last, 0, false, ALL(key));
    while (heard.number == TRIEFF_DONE) {
        memcpy(last, key, heard.length);
        for (uint32_t i = 0; i < heard.length; i++)
            putchar(alphabet[key[i]]);
        printf(" %llu\n", (unsigned long long)heard.value);
        heard = trieff_next_key(ALL(image), ALL(work), last, heard.length, true, ALL(key));
    }
    if (heard.number == TRIEFF_NO_KEY)
        printf("end of the list\n");
    else
        refused("list", heard);
}

/* A record number as it was tapped in: digits alone, and a number that fits the D = 4 bytes. */
static bool record_of(const char *digits, uint32_t *record)
{
    unsigned long long number = 0;
    if (*digits == 0)
        return false;
    for (; *digits != 0; digits++) {
        if (*digits < '0' || *digits > '9')
            return false;
        number = number * 10 + (unsigned long long)(*digits - '0');
        if (number > UINT32_MAX)
            return false;
    }
    *record = (uint32_t)number;
    return true;
}

static void obey(char *line, size_t length)
{
    const char *blank = " \t\r\n";
    bool whole = strlen(line) == length; /* no byte of it is 0 */
    char *command = strtok(line, blank), *label = strtok(NULL, blank),
         *digits = strtok(NULL, blank);
    bool more = strtok(NULL, blank) != NULL;
    uint32_t record;
    if (command == NULL && whole)
        return;
    if (whole && strcmp(command, "store") == 0 && digits != NULL && !more &&
        record_of(digits, &record))
        store(label, record);
    else if (whole && strcmp(command, "look") == 0 && label != NULL && digits == NULL)
        look_up(label);
    else if (whole && strcmp(command, "count") == 0 && label == NULL)
        count();
    else if (whole && strcmp(command, "list") == 0 && label == NULL)
        list();
    else
        printf("not understood: store LABEL RECORD, look LABEL, count, list\n");
}

int main(int argc, char **argv)
{
    char *line = NULL;
    size_t room = 0;
    ssize_t length;
    if (argc != 2) {
        fprintf(stderr, "usage: bench_file FILE, with commands from standard input\n");
        return 2;
    }
    name = argv[1];
    open_streams();
    start();
    while ((length = getline(&line, &room, stdin)) >= 0) {
        obey(line, (size_t)length);
        if (fflush(stdout) != 0)
            stop("the answers cannot be written: %s", strerror(errno));
    }
    if (!feof(stdin))
        stop("the commands cannot be read: %s", strerror(errno));
    return 0;
}
