/* Makes the calls of cases in place, by Norakkeun's archive or by the plain program's, so that bench/run can count both
 * from where a call is entered to where it returns:
 *
 *     in_place norakkeun <cases     in_place plain <cases
 *
 * A case is as bench/plain's `input case` makes it. Printed is all that its call said and left, the same by both. The
 * counter knows make_call by its name: whatever a call returns to is no part of the call. */
#include <inttypes.h>
#include <stdio.h>
#include <string.h>

#include "norakkeun.h"

/* The calls by their numbers in a case. */
enum { BEAT, OPEN, ASK, RELEASE, COMPLETE, REPORT, OVERDUE, GIVE_UP = 14 };
enum { CASE_BYTES = 19 + 22 + 40 * NORAKKEUN_JOBS };

norakkeun_answer plain_beat_in(norakkeun_table *table, norakkeun_tick tick);
norakkeun_answer plain_open_in(norakkeun_table *table, uint32_t job, norakkeun_tick tick, uint64_t set);
norakkeun_answer plain_ask_in(norakkeun_table *table, uint32_t job, norakkeun_tick tick, uint64_t set);
norakkeun_answer plain_release_in(norakkeun_table *table, uint32_t job, norakkeun_tick tick, uint64_t set);
norakkeun_answer plain_complete_in(norakkeun_table *table, uint32_t job, norakkeun_tick tick, uint8_t *woken, size_t length);
norakkeun_answer plain_give_up_in(norakkeun_table *table, uint32_t job, norakkeun_tick tick, uint64_t set, uint8_t *woken,
                                  size_t length);
norakkeun_job_report plain_report_of(const norakkeun_table *table, uint32_t job);
norakkeun_late_jobs plain_overdue_of(const norakkeun_table *table, norakkeun_tick tick, uint8_t *late, size_t length);

typedef struct calls {
    const char *name;
    norakkeun_answer (*beat)(norakkeun_table *, norakkeun_tick);
    norakkeun_answer (*open)(norakkeun_table *, uint32_t, norakkeun_tick, uint64_t);
    norakkeun_answer (*ask)(norakkeun_table *, uint32_t, norakkeun_tick, uint64_t);
    norakkeun_answer (*release)(norakkeun_table *, uint32_t, norakkeun_tick, uint64_t);
    norakkeun_answer (*complete)(norakkeun_table *, uint32_t, norakkeun_tick, uint8_t *, size_t);
    norakkeun_answer (*give_up)(norakkeun_table *, uint32_t, norakkeun_tick, uint64_t, uint8_t *, size_t);
    norakkeun_job_report (*report)(const norakkeun_table *, uint32_t);
    norakkeun_late_jobs (*overdue)(const norakkeun_table *, norakkeun_tick, uint8_t *, size_t);
} calls;

static const calls archives[] = {
    {"norakkeun", norakkeun_beat_in, norakkeun_open_in, norakkeun_ask_in, norakkeun_release_in, norakkeun_complete_in,
     norakkeun_give_up_in, norakkeun_report_of, norakkeun_overdue_of},
    {"plain", plain_beat_in, plain_open_in, plain_ask_in, plain_release_in, plain_complete_in, plain_give_up_in,
     plain_report_of, plain_overdue_of},
};

/* What is handed to a call. */
static uint32_t number, job;
static norakkeun_tick tick;
static uint64_t set;
static norakkeun_table table;
static uint8_t list[NORAKKEUN_JOBS];

/* What it says; of a question the refusal, and for the rest see the report or the count. */
static norakkeun_answer answer;
static norakkeun_report_of_job report;
static uint32_t late;

/* ---- reading a case */

/* The number in this many bytes, most significant first; `at` moves past it. */
static uint64_t take(const uint8_t **at, int bytes)
{
    uint64_t taken = 0;

    for (; bytes > 0; bytes--) {
        taken = taken * 256 + *(*at)++;
    }
    return taken;
}

static void decode(const uint8_t *at)
{
    norakkeun_row *row;

    number = (uint32_t)take(&at, 1);
    job = (uint32_t)take(&at, 4);
    tick.count = (uint32_t)take(&at, 4);
    set = take(&at, 8);
    take(&at, 2); /* the length of the list: all that need one are lent 64 */
    table.tokens = (uint32_t)take(&at, 1);
    table.resources = (uint32_t)take(&at, 1);
    table.limit = (uint32_t)take(&at, 4);
    table.time = take(&at, 8);
    table.last.place = take(&at, 8);
    for (row = table.rows; row < table.rows + NORAKKEUN_JOBS; row++) {
        row->turn.place = take(&at, 8);
        row->declared = take(&at, 8);
        row->held = take(&at, 8);
        row->asked = take(&at, 8);
        row->since = take(&at, 8);
    }
}

/* ---- the call */

/* Gives 0 if there is no such call in place. Not inlined, so that it keeps its name. */
__attribute__((noinline)) static int make_call(const calls *c)
{
    norakkeun_job_report told;
    norakkeun_late_jobs jobs;

    switch (number) {
    case BEAT: answer = c->beat(&table, tick); return 1;
    case OPEN: answer = c->open(&table, job, tick, set); return 1;
    case ASK: answer = c->ask(&table, job, tick, set); return 1;
    case RELEASE: answer = c->release(&table, job, tick, set); return 1;
    case COMPLETE: answer = c->complete(&table, job, tick, list, sizeof list); return 1;
    case GIVE_UP: answer = c->give_up(&table, job, tick, set, list, sizeof list); return 1;
    case REPORT:
        told = c->report(&table, job);
        answer.refusal = told.refusal;
        report = told.report;
        return 1;
    case OVERDUE:
        jobs = c->overdue(&table, tick, list, sizeof list);
        answer.refusal = jobs.refusal;
        late = jobs.count;
        return 1;
    default: return 0;
    }
}

/* ---- what it said and left */

static void print(unsigned long count)
{
    const norakkeun_row *row;
    size_t i;

    printf("%lu %" PRIu32 " %" PRIu32 " %" PRIu32, count, answer.refusal, answer.said, answer.woken);
    printf(" %" PRIu64 " %d %d %" PRIu32, report.turn.place, report.token, report.waiting, report.ahead);
    printf(" %" PRIu32 " %" PRIu32 "\nlist", report.in_way, late);
    for (i = 0; i < sizeof list; i++) {
        printf(" %u", list[i]);
    }
    printf("\ntable %" PRIu32 " %" PRIu32 " %" PRIu32, table.tokens, table.resources, table.limit);
    printf(" %" PRIu64 " %" PRIu64, table.time, table.last.place);
    for (row = table.rows; row < table.rows + NORAKKEUN_JOBS; row++) {
        printf(" %" PRIu64 ",%" PRIu64 ",%" PRIu64, row->turn.place, row->declared, row->held);
        printf(",%" PRIu64 ",%" PRIu64, row->asked, row->since);
    }
    printf("\n");
}

int main(int argc, char **argv)
{
    static uint8_t bytes[CASE_BYTES];
    const calls *c = archives;
    unsigned long count = 0;
    size_t got;

    c += argc == 2 && strcmp(argv[1], "plain") == 0;
    if (argc != 2 || strcmp(argv[1], c->name) != 0) {
        fprintf(stderr, "usage: in_place norakkeun|plain\n");
        return 2;
    }
    while ((got = fread(bytes, 1, sizeof bytes, stdin)) == sizeof bytes) {
        decode(bytes);
        memset(list, 255, sizeof list);
        if (!make_call(c)) {
            fprintf(stderr, "in_place: case %lu is no call in place\n", count + 1);
            return 2;
        }
        print(++count);
    }
    return got != 0 || ferror(stdin) || fflush(stdout) != 0 ? 2 : 0;
}
