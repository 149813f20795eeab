/* A file that fails, and one whose writes are told: for tests of a program with a journal. Preloaded (LD_PRELOAD) it
 * stands before the C library's calls on the file whose name ends with "/journal", and on standard output.
 *
 * FAILING_CALL=N   the Nth read, write or sync of that file, from 1 on, is answered by EIO
 * FAILING_REPLY=N  the Nth write to standard output is answered by EIO
 * FULL_AFTER=B     so many bytes may be written to that file; what is more is answered by ENOSPC
 * WITHOUT_SYNC=1   syncs of that file are answered, and not made
 * OPENING_WITHOUT=L  until standard input is read, what these letters say is answered and not made: W writes of that
 *                  file, B those of them that are not all zeros, S its syncs, N syncs of folders
 * TOLD_WRITES=D    each write of that file, each sync, and each write to standard output is told to the file of this
 *                  descriptor once it is done: a letter (W, S or T; N for a folder's sync), the place and the number
 *                  of bytes, each in eight bytes, and the bytes
 */
#define _GNU_SOURCE
#include <dlfcn.h>
#include <errno.h>
#include <stdint.h>
#include <stdio.h>
#include <stdlib.h>
#include <string.h>
#include <sys/stat.h>
#include <sys/types.h>
#include <unistd.h>

static ssize_t (*own_write)(int, const void *, size_t);
static ssize_t (*own_read)(int, void *, size_t);
static int (*own_sync)(int);
static long failing_call = -1, failing_reply = -1, full_after = -1;
static long without_sync = -1;
static const char *opening_without = "";
static int (*own_sync_all)(int);
static int told = -1;
static long calls, replies;

static long number_of(const char *name)
{
    const char *value = getenv(name);
    return value ? atol(value) : -1;
}

static void begin(void)
{
    if (own_write)
        return;
    own_read = (ssize_t (*)(int, void *, size_t))dlsym(RTLD_NEXT, "read");
    own_sync = (int (*)(int))dlsym(RTLD_NEXT, "fdatasync");
    own_sync_all = (int (*)(int))dlsym(RTLD_NEXT, "fsync");
    if (getenv("OPENING_WITHOUT"))
        opening_without = getenv("OPENING_WITHOUT");
    failing_call = number_of("FAILING_CALL");
    failing_reply = number_of("FAILING_REPLY");
    full_after = number_of("FULL_AFTER");
    without_sync = number_of("WITHOUT_SYNC");
    told = (int)number_of("TOLD_WRITES");
    own_write = (ssize_t (*)(int, const void *, size_t))dlsym(RTLD_NEXT, "write");
}

/* Whether a descriptor is that of a journal. */
static int is_journal(int file)
{
    char link[64], path[4096];
    snprintf(link, sizeof link, "/proc/self/fd/%d", file);
    ssize_t length = readlink(link, path, sizeof path - 1);
    if (file < 3 || length < 8)
        return 0;
    path[length] = 0;
    return strcmp(path + length - 8, "/journal") == 0;
}

/* Whether this call on the journal is the one that fails. */
static int fails(void)
{
    if (++calls != failing_call)
        return 0;
    errno = EIO;
    return 1;
}

static int are_zeros(const char *bytes, size_t count)
{
    for (size_t at = 0; at < count; at++)
        if (bytes[at])
            return 0;
    return 1;
}

static void tell(char letter, uint64_t place, uint64_t count, const void *bytes)
{
    char head[17] = {letter};
    if (told < 0)
        return;
    memcpy(head + 1, &place, 8);
    memcpy(head + 9, &count, 8);
    if (own_write(told, head, sizeof head) != sizeof head || own_write(told, bytes, count) != (ssize_t)count)
        abort();
}

ssize_t read(int file, void *bytes, size_t count)
{
    begin();
    if (file == 0)
        opening_without = "";
    if (is_journal(file) && fails())
        return -1;
    return own_read(file, bytes, count);
}

ssize_t write(int file, const void *bytes, size_t count)
{
    begin();
    if (file == 1) {
        if (++replies == failing_reply) {
            errno = EIO;
            return -1;
        }
        ssize_t done = own_write(file, bytes, count);
        if (done > 0)
            tell('T', 0, done, bytes);
        return done;
    }
    if (!is_journal(file))
        return own_write(file, bytes, count);
    if (fails())
        return -1;
    if (full_after >= 0) {
        if ((long)count > full_after)
            count = full_after;
        if (count == 0) {
            errno = ENOSPC;
            return -1;
        }
    }
    if (strchr(opening_without, 'W') || (strchr(opening_without, 'B') && !are_zeros(bytes, count))) {
        lseek(file, count, SEEK_CUR);
        return count;
    }
    off_t place = lseek(file, 0, SEEK_CUR);
    ssize_t done = own_write(file, bytes, count);
    if (done > 0) {
        full_after -= full_after >= 0 ? done : 0;
        tell('W', place, done, bytes);
    }
    return done;
}

int fdatasync(int file)
{
    begin();
    if (!is_journal(file))
        return own_sync(file);
    if (fails())
        return -1;
    int done = without_sync > 0 || strchr(opening_without, 'S') ? 0 : own_sync(file);
    if (done == 0)
        tell('S', 0, 0, "");
    return done;
}

int fsync(int file)
{
    struct stat found;
    begin();
    if (fstat(file, &found) != 0 || !S_ISDIR(found.st_mode))
        return own_sync_all(file);
    if (strchr(opening_without, 'N'))
        return 0;
    tell('N', 0, 0, "");
    return own_sync_all(file);
}
