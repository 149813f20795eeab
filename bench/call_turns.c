/* Calls programs by turns, one call each, and prints what a call of each takes: what else the machine does then falls
 * on all of them alike.
 *
 *     call_turns CALLS -- PROGRAM WORD.. -- PROGRAM WORD.. ..
 *
 * A call is a signal's line to one workflow, which a first line starts, and waits for its reply. All programs are held
 * on one processor, and the caller on another. `chrt -f 30` before it has them wait for no other work. It prints
 * percentiles in microseconds, and the mean of the shortest nine tenths.
 */
#define _GNU_SOURCE
#include <fcntl.h>
#include <sched.h>
#include <stdio.h>
#include <stdlib.h>
#include <string.h>
#include <sys/wait.h>
#include <time.h>
#include <unistd.h>

enum { MOST = 8, FOR_PROGRAMS = 1, FOR_CALLER = 3 };

struct program {
    char *name;
    int asks, answers;
    double *spent;
};

static double microseconds(void)
{
    struct timespec now;
    clock_gettime(CLOCK_MONOTONIC, &now);
    return now.tv_sec * 1e6 + now.tv_nsec / 1e3;
}

static void hold_on(int processor)
{
    cpu_set_t set;
    CPU_ZERO(&set);
    CPU_SET(processor, &set);
    sched_setaffinity(0, sizeof set, &set);
}

static void start(struct program *program, char **words)
{
    int asks[2], answers[2];
    if (pipe2(asks, O_CLOEXEC) || pipe2(answers, O_CLOEXEC))
        exit(2);
    if (fork() == 0) {
        hold_on(FOR_PROGRAMS);
        dup2(asks[0], 0);
        dup2(answers[1], 1);
        execvp(words[0], words);
        _exit(127);
    }
    close(asks[0]);
    close(answers[1]);
    program->name = words[0];
    program->asks = asks[1];
    program->answers = answers[0];
}

static double call(struct program *program, const char *line)
{
    static char reply[65536];
    size_t length = strlen(line);
    double began = microseconds();
    if (write(program->asks, line, length) != (ssize_t)length || read(program->answers, reply, sizeof reply) <= 0)
        exit(2);
    return microseconds() - began;
}

static int compare(const void *one, const void *other)
{
    double difference = *(const double *)one - *(const double *)other;
    return (difference > 0) - (difference < 0);
}

static void say(struct program *program, int calls)
{
    double *spent = program->spent, sum = 0;
    int most = calls * 9 / 10;
    qsort(spent, calls, sizeof *spent, compare);
    for (int number = 0; number < most; number++)
        sum += spent[number];
    printf("%s: tenth %.1f, half %.1f, nine tenths %.1f, mean of the shortest nine tenths %.2f\n", program->name,
        spent[calls / 10], spent[calls / 2], spent[most], sum / most);
}

/* Starts each program that the words name. How many these are. */
static int start_all(struct program *programs, int count, char **words, int calls)
{
    int many = 0;
    for (int at = 2; at + 1 < count && many < MOST; at++) {
        if (strcmp(words[at], "--"))
            continue;
        int end = at + 1;
        while (end < count && strcmp(words[end], "--"))
            end++;
        char *kept = words[end];
        words[end] = NULL;
        programs[many].spent = malloc(calls * sizeof(double));
        start(&programs[many++], words + at + 1);
        words[end] = kept;
    }
    return many;
}

int main(int count, char **words)
{
    struct program programs[MOST];
    char line[256];
    int calls = count > 2 ? atoi(words[1]) : 0;
    if (calls < 10)
        return 2;
    hold_on(FOR_CALLER);
    int many = start_all(programs, count, words, calls);
    for (int number = 0; number < many; number++)
        call(&programs[number], "{\"op\":\"start\",\"workflow_id\":\"order\",\"workflow_type\":\"order\","
            "\"task_queue\":\"main\",\"request_id\":\"request-order\",\"at\":0}\n");
    for (int turn = 0; turn < calls; turn++) {
        sprintf(line, "{\"at\":%d,\"name\":\"paid\",\"op\":\"signal\",\"workflow_id\":\"order\"}\n", turn);
        for (int number = 0; number < many; number++) {
            struct program *next = &programs[(number + turn) % many];
            next->spent[turn] = call(next, line);
        }
    }
    for (int number = 0; number < many; number++)
        say(&programs[number], calls);
    return 0;
}
