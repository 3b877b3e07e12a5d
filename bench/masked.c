/* Makes the most expensive call of an event in place and writes its record, TIMES times, so that bench/run can count one:
 *
 *     masked <<<"EVENT TIMES"
 *
 * All rows are live, every request has a token, and turns fall with the job, so that putting them in line takes the most
 * steps. The first in turn holds what all others ask for, each a resource of its own: whoever ends it lets all others go
 * on. A refused ask looks at as much as an accepted one. Printed is what the last call said. */
#include <inttypes.h>
#include <stdio.h>
#include <string.h>

#include "norakkeun.h"

enum { FIRST = NORAKKEUN_JOBS - 1 };

static const norakkeun_tick tick = {1000};
static const uint64_t all = UINT64_MAX >> 1; /* one resource for each job but the first */
static norakkeun_table dearest, table;
static uint8_t list[NORAKKEUN_JOBS], room[NORAKKEUN_RECORD];

/* The counter knows it by its name: whatever a call returns to is no part of the call. */
__attribute__((noinline)) norakkeun_answer make_call(const char *event)
{
    norakkeun_answer written = {0, 0, 0};

    if (strcmp(event, "beat") == 0) {
        return norakkeun_beat_in(&table, tick);
    } else if (strcmp(event, "open") == 0) {
        return norakkeun_open_in(&table, 0, tick, 1);
    } else if (strcmp(event, "refused") == 0) {
        return norakkeun_ask_in(&table, FIRST, tick, all);
    } else if (strcmp(event, "release") == 0) {
        return norakkeun_release_in(&table, FIRST, tick, all);
    } else if (strcmp(event, "complete") == 0) {
        return norakkeun_complete_in(&table, FIRST, tick, list, sizeof list);
    } else if (strcmp(event, "give-up") == 0) {
        return norakkeun_give_up_in(&table, FIRST, tick, all, list, sizeof list);
    }
    written.refusal = norakkeun_record_give_up(FIRST, tick, all, room, sizeof room);
    return written;
}

/* An opening needs an idle row, job 0's. */
static int set_up(uint32_t rows)
{
    norakkeun_told told = norakkeun_start(NORAKKEUN_JOBS, NORAKKEUN_JOBS, tick, 5000);
    uint32_t i;

    dearest = told.table;
    for (i = 0; i < rows; i++) {
        uint64_t set = i == 0 ? all : (uint64_t)1 << (i - 1);

        if (norakkeun_open_in(&dearest, FIRST - i, tick, set).refusal != 0 ||
            norakkeun_ask_in(&dearest, FIRST - i, tick, set).refusal != 0) {
            return 0;
        }
    }
    return told.refusal == 0;
}

int main(void)
{
    norakkeun_answer answer = {0, 0, 0};
    char event[16];
    uint32_t times, i;

    if (scanf("%15s %" SCNu32, event, &times) != 2 || !set_up(strcmp(event, "open") == 0 ? FIRST : NORAKKEUN_JOBS)) {
        return 1;
    }
    for (i = 0; i < times; i++) {
        table = dearest;
        answer = make_call(event);
    }
    printf("%" PRIu32 " %" PRIu32 " %" PRIu32 "\n", answer.refusal, answer.said, answer.woken);
    return 0;
}
