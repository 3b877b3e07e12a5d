/* A board for the listings of docs/FIRMWARE.md, on which tests/page runs them:
 *
 *     listings RECORDING >listing
 *
 * The listings are included as they stand on the page. The events of RECORDING come in again through them, and what is then in
 * flash must be RECORDING; standard output is its listing, without the last line. Then the ring is filled, calls are made
 * without a record, the table is damaged. The first thing that is not as it must be ends the program with status 1. */
#include <inttypes.h>
#include <stdbool.h>
#include <stdio.h>
#include <stdlib.h>
#include <string.h>

#include "norakkeun.h"

#include "ring.c"
#include "call.c"
#include "flash.c"
#include "try.c"

#define MUST(what) must((what), #what, __LINE__)

static void must(bool holds, const char *what, int line)
{
    if (!holds) {
        fprintf(stderr, "listings: line %d: not so: %s\n", line, what);
        exit(1);
    }
}

/* ---- the board */

enum { MOST_RECORDS = 4096 };

static bool masked, beginning;
static norakkeun_tick now;
static uint32_t kept_before; /* records in the ring and calls without one, before the event that is at work */
static uint8_t went_on[NORAKKEUN_JOBS]; /* by the last event */
static uint32_t went_on_count, waits_count, stops;

/* What is in flash: the recording, and the service file that lies beside it, if any. */
static uint8_t recording[MOST_RECORDS][NORAKKEUN_RECORD];
static uint32_t in_recording;
static uint8_t beside[NORAKKEUN_LONGEST_FILE];
static size_t beside_length;
static uint32_t begun;
static void (*while_flashing)(void); /* what comes in while the service file is being written */

/* Masks may be nested: what was masked before is masked again. */
uint32_t board_mask(void)
{
    uint32_t before = masked;

    masked = true;
    return before;
}

void board_unmask(uint32_t before)
{
    MUST(masked);
    masked = before != 0;
}

norakkeun_tick board_counter(void)
{
    MUST(masked || beginning);
    return now;
}

void job_waits(uint32_t job)
{
    MUST(masked && job < NORAKKEUN_JOBS && ring.put + lost == kept_before + 1);
    waits_count++;
}

void job_goes_on(uint32_t job)
{
    MUST(masked && went_on_count < NORAKKEUN_JOBS && ring.put + lost == kept_before + 1);
    went_on[went_on_count++] = (uint8_t)job;
}

void stop_for_good(const norakkeun_table *damaged)
{
    MUST(norakkeun_report_of(damaged, 0).refusal == NORAKKEUN_UNSOUND_TABLE);
    stops++;
}

void flash_record(uint32_t number, const uint8_t *record)
{
    MUST(!masked && number == in_recording + 1 && number <= MOST_RECORDS);
    memcpy(recording[number - 1], record, NORAKKEUN_RECORD);
    in_recording = number;
}

void flash_begin(const uint8_t *file, size_t length)
{
    MUST(!masked && length <= sizeof beside);
    memcpy(beside, file, length);
    beside_length = length;
    in_recording = 0;
    begun++;
    if (while_flashing != NULL) {
        while_flashing();
    }
}

/* ---- what is tried */

/* The table's bytes at some moment, with those between its fields, which get a value that no call would give them. */
static uint8_t snapshot[sizeof(norakkeun_table)];

static void note_table(void)
{
    enum { FIELD_ENDS = offsetof(norakkeun_table, limit) + sizeof(uint32_t), NEXT_BEGINS = offsetof(norakkeun_table, time) };

    memset((uint8_t *)&table + FIELD_ENDS, 0xa5, NEXT_BEGINS - FIELD_ENDS);
    memcpy(snapshot, &table, sizeof table);
}

static bool as_noted(void)
{
    return memcmp(snapshot, &table, sizeof table) == 0;
}

static norakkeun_answer hand_in(event_kind kind, uint32_t job, uint64_t set, bool cannot_wait)
{
    norakkeun_answer answer;

    went_on_count = 0;
    kept_before = ring.put + lost;
    answer = hand_over((event){kind, job, set}, cannot_wait);
    MUST(!masked && went_on_count == answer.woken);
    return answer;
}

static uint32_t begin_with(uint32_t tokens, uint32_t resources, uint32_t limit)
{
    uint32_t refusal;

    beginning = true;
    refusal = begin(tokens, resources, limit);
    beginning = false;
    return refusal;
}

static bool not_made(norakkeun_answer answer)
{
    return answer.refusal == 0 && answer.said == 0;
}

static uint64_t number_in(const uint8_t *bytes, size_t count)
{
    uint64_t number = 0;

    while (count-- > 0) {
        number = number * 256 + *bytes++;
    }
    return number;
}

/* One record comes in again, as what it says. */
static void again(const uint8_t *r)
{
    static const event_kind kinds[] = {BEAT, OPEN, ASK, RELEASE, COMPLETE, BEAT, GIVE_UP};
    uint32_t job = (r[0] & 31U) << 1 | r[1] >> 7, i;
    norakkeun_answer answer = {0, NORAKKEUN_DONE, 0};

    now.count = (uint32_t)number_in(r + 2, 4);
    if (r[0] >> 5 == 5) {
        MUST(begin_with(job + 1, (r[1] >> 1 & 63U) + 1, (uint32_t)number_in(r + 6, 4)) == NORAKKEUN_ACCEPTED);
        went_on_count = 0;
    } else {
        bool granted;

        note_table();
        granted = would_be_granted(&table, job, now, number_in(r + 6, 8));
        MUST(as_noted());
        answer = hand_in(kinds[r[0] >> 5], job, number_in(r + 6, 8), false);
        MUST(kinds[r[0] >> 5] != ASK || granted == (answer.said == NORAKKEUN_GRANTED));
    }
    printf("%" PRIu32 " ", ring.put - first);
    if (answer.refusal != NORAKKEUN_ACCEPTED) {
        printf("no %" PRIu32 "\n", answer.refusal);
        return;
    }
    printf(answer.said == NORAKKEUN_WAIT ? "wait" : "ok");
    for (i = 0; i < went_on_count; i++) {
        printf(" %u", went_on[i]);
    }
    printf("\n");
}

/* What is in flash afterwards is the recording, though a job that does not exist comes in after each of its records. */
static void whole_recording(const char *path)
{
    static uint8_t wanted[MOST_RECORDS][NORAKKEUN_RECORD];
    FILE *file = fopen(path, "rb");
    size_t count, i;

    MUST(file != NULL);
    count = fread(wanted, NORAKKEUN_RECORD, MOST_RECORDS, file);
    MUST(count > 1 && fclose(file) == 0);
    for (i = 0; i < count; i++) {
        again(wanted[i]);
        note_table();
        MUST(hand_in(OPEN, NORAKKEUN_JOBS, 1, false).refusal == NORAKKEUN_NO_SUCH_JOB && as_noted());
        if (i % 3 == 0) {
            flash_task();
        }
    }
    flash_task();
    MUST(in_recording == count && memcmp(recording, wanted, count * NORAKKEUN_RECORD) == 0);
    MUST(begun == 0 && stops == 0 && waits_count > 0);
}

static void fresh_start(void)
{
    in_recording = 0;
    begun = 0;
    now.count = 1000;
    MUST(begin_with(2, 3, 50) == NORAKKEUN_ACCEPTED && ring.put - first == 1);
}

/* A call that finds no room is not made, and one that cannot wait ends the recording. */
static void full_ring(void)
{
    uint32_t i, put;

    fresh_start();
    for (i = 1; i < SLOTS - SPARE; i++) {
        MUST(hand_in(BEAT, 0, 0, false).said == NORAKKEUN_DONE);
    }
    note_table();
    put = ring.put;
    now.count++;
    MUST(not_made(hand_in(OPEN, 7, 1, false)) && ring.put == put && as_noted());
    for (i = 0; i < SPARE; i++) {
        MUST(hand_in(BEAT, 0, 0, true).said == NORAKKEUN_DONE && lost == 0);
    }
    MUST(ring.put - ring.taken == SLOTS && ring.put == put + SPARE);
    MUST(hand_in(OPEN, 7, 1, true).said == NORAKKEUN_TOKEN && lost == 1 && ring.put == put + SPARE);
    MUST(not_made(hand_in(ASK, 7, 1, false)));
    ring_next();
    ring_taken(); /* room again, but after the gap nothing comes into this recording */
    in_recording = 1;
    MUST(not_made(hand_in(ASK, 7, 1, false)) && lost == 1);
}

/* An event that cannot wait comes in while the file is being written, once. */
static void meanwhile(void)
{
    while_flashing = NULL;
    MUST(hand_in(ASK, 7, 1, true).said == NORAKKEUN_GRANTED);
}

/* The file beside the new recording is the table before its first record. */
static void behind_the_gap(void)
{
    uint8_t file[NORAKKEUN_LONGEST_FILE] = {0};

    while_flashing = meanwhile;
    flash_task();
    MUST(begun == 1 && lost == 2 && ring.put == ring.taken);
    MUST(not_made(hand_in(RELEASE, 7, 1, false)));
    flash_task();
    MUST(begun == 2 && lost == 0 && in_recording == 0);
    MUST(norakkeun_save(table, file, sizeof file).length == beside_length && memcmp(file, beside, beside_length) == 0);
    MUST(hand_in(RELEASE, 7, 1, false).said == NORAKKEUN_DONE && ring.put - first == 1);
    flash_task();
    MUST(in_recording == 1 && begun == 2 && recording[0][0] >> 5 == RELEASE);
}

/* The numbers in the ring go past 2^32. */
static void long_run(void)
{
    uint32_t i;

    ring.put = ring.taken = UINT32_MAX - 5;
    fresh_start();
    for (i = 2; i < 20; i++) {
        MUST(hand_in(BEAT, 0, 0, false).said == NORAKKEUN_DONE && ring.put - first == i);
    }
    flash_task();
    MUST(in_recording == 19 && ring.put < 20);
}

/* A table that was changed from outside is reported, recorded, and left as it is. */
static void damaged_table(void)
{
    fresh_start();
    stops = 0;
    table.rows[5].held = 4;
    note_table();
    MUST(hand_in(BEAT, 0, 0, false).refusal == NORAKKEUN_UNSOUND_TABLE && stops == 1);
    MUST(ring.put - first == 2 && as_noted());
    lost = 1;
    flash_task();
    MUST(stops == 2 && lost == 1 && begun == 0); /* such a table has no file, and no recording begins after it */
}

int main(int argc, char **argv)
{
    if (argc != 2) {
        fprintf(stderr, "usage: listings RECORDING\n");
        return 2;
    }
    whole_recording(argv[1]);
    full_ring();
    behind_the_gap();
    long_run();
    damaged_table();
    return fflush(stdout) == 0 ? 0 : 2;
}
