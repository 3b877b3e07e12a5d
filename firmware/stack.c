/* How much stack the calls take, and how large the structs are.
 *
 * Each call is made on a stack of its own that was filled with a pattern before. What is printed is how far down the
 * pattern is gone: from the frame of a function that makes the one call, with its copy of the table if it is by value and
 * its answer, to the lowest byte that was written. In place the table is no part of that: it lies where it always does. All
 * 64 rows are live. Each call was made before, so that the C library's functions are found already. */
#define _XOPEN_SOURCE 700
#include <stdint.h>
#include <stdio.h>
#include <stdlib.h>
#include <string.h>
#include <ucontext.h>

#include "norakkeun.h"

enum { STACK_BYTES = 1 << 20, PATTERN = 0xa5 };

static uint8_t stack[STACK_BYTES];
static ucontext_t caller, callee;
static norakkeun_table table;
static uint32_t refusal;
static uint8_t list[NORAKKEUN_JOBS];
static uint8_t file[NORAKKEUN_LONGEST_FILE];

/* ---- one function for each call, so that only its own frame stands above it */

static void nothing(void) {}

static void start(void) { refusal = norakkeun_start(8, 64, (norakkeun_tick){0}, 50).refusal; }

static void beat(void) { refusal = norakkeun_beat(table, (norakkeun_tick){100}).refusal; }

static void open(void) { refusal = norakkeun_open(table, 63, (norakkeun_tick){100}, 1).refusal; }

static void ask(void) { refusal = norakkeun_ask(table, 1, (norakkeun_tick){100}, 1).refusal; }

static void release(void) { refusal = norakkeun_release(table, 0, (norakkeun_tick){100}, 1).refusal; }

static void complete(void)
{
    refusal = norakkeun_complete(table, 0, (norakkeun_tick){100}, list, sizeof list).refusal;
}

static void give_up(void)
{
    refusal = norakkeun_give_up(table, 0, (norakkeun_tick){100}, 1, list, sizeof list).refusal;
}

static void report(void) { refusal = norakkeun_report(table, 63).refusal; }

static void overdue(void) { refusal = norakkeun_overdue(table, (norakkeun_tick){100}, list, sizeof list).refusal; }

static void record_open(void) { refusal = norakkeun_record_open(63, (norakkeun_tick){100}, 1, list, sizeof list); }

static void save(void) { refusal = norakkeun_save(table, file, sizeof file).refusal; }

/* Of the file that was saved before. */
static void load(void) { refusal = norakkeun_load(file, sizeof file).refusal; }

static void beat_in(void) { refusal = norakkeun_beat_in(&table, (norakkeun_tick){100}).refusal; }

static void open_in(void) { refusal = norakkeun_open_in(&table, 63, (norakkeun_tick){100}, 1).refusal; }

static void ask_in(void) { refusal = norakkeun_ask_in(&table, 1, (norakkeun_tick){100}, 1).refusal; }

static void release_in(void) { refusal = norakkeun_release_in(&table, 0, (norakkeun_tick){100}, 1).refusal; }

static void complete_in(void)
{
    refusal = norakkeun_complete_in(&table, 0, (norakkeun_tick){100}, list, sizeof list).refusal;
}

static void give_up_in(void)
{
    refusal = norakkeun_give_up_in(&table, 0, (norakkeun_tick){100}, 1, list, sizeof list).refusal;
}

static void report_of(void) { refusal = norakkeun_report_of(&table, 63).refusal; }

static void overdue_of(void) { refusal = norakkeun_overdue_of(&table, (norakkeun_tick){100}, list, sizeof list).refusal; }

/* ---- the measurement */

/* Runs the function on the painted stack; gives the number of bytes from the stack's top to the lowest one written. */
static size_t depth(void (*function)(void))
{
    size_t i = 0;

    memset(stack, PATTERN, sizeof stack);
    if (getcontext(&callee) != 0) {
        exit(2);
    }
    callee.uc_stack.ss_sp = stack;
    callee.uc_stack.ss_size = sizeof stack;
    callee.uc_link = &caller;
    makecontext(&callee, function, 0);
    if (swapcontext(&caller, &callee) != 0) {
        exit(2);
    }
    while (i < sizeof stack && stack[i] == PATTERN) {
        i++;
    }
    return sizeof stack - i;
}

/* The table is put back, for a call in place changes it. */
static void measure(const char *name, void (*function)(void))
{
    const norakkeun_table before = table;
    size_t bytes;

    function();
    table = before;
    bytes = depth(function) - depth(nothing);
    table = before;
    if (refusal != NORAKKEUN_ACCEPTED) {
        fprintf(stderr, "stack: %s was refused as %u\n", name, (unsigned)refusal);
        exit(1);
    }
    printf("stack %s %zu\n", name, bytes);
}

/* The first `jobs` of them open for resource 0, and the first holds it; job 1, with a token, may ask for it. */
static void fill(uint32_t jobs)
{
    norakkeun_tick tick = {0};
    uint32_t job;

    table = norakkeun_start(8, 64, tick, 50).table;
    for (job = 0; job < jobs; job++) {
        table = norakkeun_open(table, job, tick, 1).table;
    }
    table = norakkeun_ask(table, 0, tick, 1).table;
}

int main(void)
{
    printf("size table %zu\n", sizeof(norakkeun_table));
    printf("size told %zu\n", sizeof(norakkeun_told));
    printf("size answer %zu\n", sizeof(norakkeun_answer));
    printf("size job_report %zu\n", sizeof(norakkeun_job_report));
    printf("size late_jobs %zu\n", sizeof(norakkeun_late_jobs));
    printf("size saved %zu\n", sizeof(norakkeun_saved));
    measure("start", start);
    fill(NORAKKEUN_JOBS - 1);
    measure("open", open);
    measure("open_in", open_in);
    fill(NORAKKEUN_JOBS);
    measure("beat", beat);
    measure("ask", ask);
    measure("release", release);
    measure("complete", complete);
    measure("give_up", give_up);
    measure("report", report);
    measure("overdue", overdue);
    measure("record_open", record_open);
    measure("save", save);
    measure("load", load);
    measure("beat_in", beat_in);
    measure("ask_in", ask_in);
    measure("release_in", release_in);
    measure("complete_in", complete_in);
    measure("give_up_in", give_up_in);
    measure("report_of", report_of);
    measure("overdue_of", overdue_of);
    return 0;
}
