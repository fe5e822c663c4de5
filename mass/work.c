#define _DEFAULT_SOURCE                /* MAP_ANONYMOUS */
#include "work.h"

#include <inttypes.h>
#include <signal.h>
#include <stdio.h>
#include <stdlib.h>
#include <string.h>
#include <sys/mman.h>
#include <sys/types.h>
#include <sys/wait.h>
#include <time.h>
#include <unistd.h>

#include "describe.h"

#define SECONDS_BETWEEN_LINES 10
#define LINES_WITHOUT_A_CHECK 6        /* then a call has not ended, and its worker is stopped */

/* Worker `which` does each unit that leaves it over when divided by the number of workers. */
static void work(const part *todo, uint64_t number, uint64_t seed, int which, int workers, tally *counted)
{
    for (uint64_t unit = (uint64_t)which; unit < todo->units; unit += (uint64_t)workers) {
        chance by = chance_for(seed, number, unit);
        check_into(counted, unit);
        todo->run(unit, &by);
        counted->units_done++;
    }
}

/* To standard error; the number of checks so far. */
static uint64_t say_progress(const part *todo, const tally *counted, int workers)
{
    uint64_t done = 0, checks = 0;
    for (int i = 0; i < workers; i++) {
        done += counted[i].units_done;
        checks += counted[i].checks;
    }
    fprintf(stderr, "  %-14s %3" PRIu64 " of 100, %" PRIu64 " checks\n", todo->name, done * 100 / todo->units, checks);
    return checks;
}

/* How far the workers were when it was last said. */
typedef struct progress {
    time_t when;
    uint64_t checks;
    int standing;                      /* lines in a row that told of no new check */
} progress;

/* Waits for one worker, and says now and then how far all are. */
static int wait_for(pid_t worker, const part *todo, const tally *counted, int workers, progress *said)
{
    const struct timespec moment = {0, 20000000};
    int status = 0;
    while (waitpid(worker, &status, WNOHANG) == 0) {
        nanosleep(&moment, NULL);
        if (time(NULL) - said->when < SECONDS_BETWEEN_LINES)
            continue;
        uint64_t checks = say_progress(todo, counted, workers);
        said->standing = checks == said->checks ? said->standing + 1 : 0;
        said->checks = checks;
        said->when = time(NULL);
        if (said->standing >= LINES_WITHOUT_A_CHECK)
            kill(worker, SIGKILL);
    }
    return status;
}

/* A worker that ended otherwise than by having done its units, as by a signal. */
static void report_death(const tally *counted, int status, tally *sum)
{
    char text[DIFFERENCE_ROOM] = "";
    words said = {text, 0};
    say_call(&said, &counted->last);
    bool by_signal = WIFSIGNALED(status);
    printf("difference: a worker ended with %s %d in this call or right after it\n  %s",
           by_signal ? "signal" : "status", by_signal ? WTERMSIG(status) : WEXITSTATUS(status), text);
    sum->checks++;
    sum->failed++;
}

static void add_counts(tally *sum, const tally *counted)
{
    sum->units_done += counted->units_done;
    sum->checks += counted->checks;
    sum->failed += counted->failed;
    sum->again += counted->again;
    for (int i = 0; i < ANSWERS; i++)
        sum->answers[i] += counted->answers[i];
}

/* Each worker has kept its first differences in order of its units; the first of all are among them. */
static void merge_differences(tally *sum, const tally *counted, int workers)
{
    size_t taken[MOST_WORKERS] = {0};
    while (sum->differences < DIFFERENCES_KEPT) {
        int first = -1;
        for (int i = 0; i < workers; i++)
            if (taken[i] < counted[i].differences
                && (first < 0 || counted[i].kept[taken[i]].unit < counted[first].kept[taken[first]].unit))
                first = i;
        if (first < 0)
            return;
        sum->kept[sum->differences++] = counted[first].kept[taken[first]++];
    }
}

static pid_t start_worker(const part *todo, uint64_t number, uint64_t seed, int which, int workers, tally *counted)
{
    fflush(stdout);
    fflush(stderr);
    pid_t worker = fork();
    if (worker < 0) {
        perror("mass: no worker");
        exit(2);
    }
    if (worker == 0) {
        work(todo, number, seed, which, workers, counted);
        _exit(0);
    }
    return worker;
}

void do_part(const part *todo, uint64_t number, uint64_t seed, int workers, tally *sum)
{
    pid_t worker[MOST_WORKERS];
    progress said = {time(NULL), 0, 0};
    size_t size = (size_t)workers * sizeof(tally);
    tally *counted = mmap(NULL, size, PROT_READ | PROT_WRITE, MAP_SHARED | MAP_ANONYMOUS, -1, 0);
    if (counted == MAP_FAILED) {
        perror("mass: no memory");
        exit(2);
    }
    for (int i = 0; i < workers; i++)
        worker[i] = start_worker(todo, number, seed, i, workers, &counted[i]);
    memset(sum, 0, sizeof *sum);
    for (int i = 0; i < workers; i++) {
        int status = wait_for(worker[i], todo, counted, workers, &said);
        if (status != 0)
            report_death(&counted[i], status, sum);
        add_counts(sum, &counted[i]);
    }
    merge_differences(sum, counted, workers);
    munmap(counted, size);
}
