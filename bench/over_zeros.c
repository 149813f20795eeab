/* Writes a text over zeros that are on the disk already, a line at a time, with one fdatasync each: what a program
 * with a journal does for a caller who waits for each reply, and nothing else.
 *
 *     over_zeros FILE LINES BYTES [called]
 *
 * FILE is made anew. Each line has so many bytes; with 0 nothing is written. Zeros are added where wfserve adds them:
 * as many as the file has, 64 KiB at least and 4 MiB at most. It prints how many seconds the writes and syncs took.
 * With `called` it reads from standard input before each line, answers on standard output after its sync, as many
 * bytes as wfserve does, and prints no time.
 */
#include <fcntl.h>
#include <stdio.h>
#include <stdlib.h>
#include <string.h>
#include <time.h>
#include <unistd.h>

enum { LEAST = 65536, MOST = 4194304 };
static char zeros[LEAST];
static const char reply[] = "{\"line\":1000,\"ok\":\"signaled\"}\n";

/* Adds so many zeros, and has them on the disk. */
static void add_zeros(int file, off_t end, off_t count)
{
    for (off_t done = 0, more; done < count; done += more) {
        more = count - done < LEAST ? count - done : LEAST;
        if (pwrite(file, zeros, more, end + done) != more)
            exit(2);
    }
    if (fdatasync(file))
        exit(2);
}

/* How many are added after so many bytes, beside those that the next line takes. */
static off_t zeros_after(off_t bytes)
{
    if (bytes < LEAST)
        return LEAST;
    return bytes < MOST ? bytes : MOST;
}

static double seconds(void)
{
    struct timespec now;
    clock_gettime(CLOCK_MONOTONIC, &now);
    return now.tv_sec + now.tv_nsec / 1e9;
}

/* What a caller asks, and what it waits for. */
static void wait_for_call(void)
{
    static char call[65536];
    if (read(0, call, sizeof call) <= 0)
        exit(2);
}

static void answer(void)
{
    if (write(1, reply, sizeof reply - 1) != sizeof reply - 1)
        exit(2);
}

int main(int count, char **words)
{
    int called = count == 5 && strcmp(words[4], "called") == 0;
    if (count != 4 && !called)
        return 2;
    int file = open(words[1], O_RDWR | O_CREAT | O_TRUNC, 0600);
    long lines = atol(words[2]), bytes = atol(words[3]);
    char *line = malloc(bytes + 1);
    off_t at = 0, end = 0;
    if (file < 0 || !line)
        return 2;
    memset(line, 'x', bytes);
    double began = seconds();
    for (long number = 0; number < lines; number++) {
        if (called)
            wait_for_call();
        if (bytes > 0) {
            if (at + bytes >= end) {
                off_t more = bytes + zeros_after(at);
                add_zeros(file, end, more);
                end += more;
            }
            if (pwrite(file, line, bytes, at) != bytes || fdatasync(file))
                return 2;
            at += bytes;
        }
        if (called)
            answer();
    }
    if (!called)
        printf("%.6f\n", seconds() - began);
    return 0;
}
