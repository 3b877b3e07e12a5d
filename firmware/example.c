/* The night of day fifty as firmware hands it to the arbiter: samples/night.lines in C.
 *
 *     example RECORDING >listing 2>answers
 *
 * Each event is recorded before it is handed over, refused ones too: the replay refuses them alike. Standard output is
 * what bin/replay prints of RECORDING, and standard error has the answers to the questions. In the middle of the night a
 * spare drive takes over by a service file, which nobody notices; and a job that does not exist opens a request, which has
 * no record and so no line. */
#include <inttypes.h>
#include <stdbool.h>
#include <stdio.h>
#include <stdlib.h>

#include "norakkeun.h"

enum { CURRENT_CONTROL = 3, BRAKE = 7, DISPLAY = 12, TELEMETRY = 20, NO_SUCH_JOB = 64 };
enum { ENCODER_BUS = 1, GATE_DRIVER = 2, PARAMETER_MEMORY = 4 }; /* a set is their sum */
enum { TOKENS = 2, RESOURCES = 3, LIMIT_MS = 50 };

/* The events of this night, which change the table, and two questions, which do not; and a spare drive takes over. */
typedef enum { BEAT, OPEN, ASK, RELEASE, COMPLETE, REPORT, OVERDUE, TAKE_OVER } message_kind;

/* What a job or a timer says to the arbiter. */
typedef struct message {
    message_kind kind;
    uint32_t job;
    norakkeun_tick tick;
    uint64_t set;
} message;

/* The only state that the arbiter has. One context owns it. */
static norakkeun_table table;

static FILE *recording;
static unsigned long number; /* of the last record: counted are records, not calls, as in the listing */

/* Whether there is a record now. Only a job above 63, or a start whose numbers do not fit, has none; these change no
 * table. */
static bool keep(const uint8_t *record, uint32_t refusal)
{
    if (refusal != NORAKKEUN_ACCEPTED) {
        return false;
    }
    if (fwrite(record, NORAKKEUN_RECORD, 1, recording) != 1) {
        perror("the recording");
        exit(2);
    }
    number++;
    return true;
}

static bool record_event(message m)
{
    uint8_t record[NORAKKEUN_RECORD] = {0};
    uint32_t refusal;

    switch (m.kind) {
    case BEAT: refusal = norakkeun_record_beat(m.tick, record, sizeof record); break;
    case OPEN: refusal = norakkeun_record_open(m.job, m.tick, m.set, record, sizeof record); break;
    case ASK: refusal = norakkeun_record_ask(m.job, m.tick, m.set, record, sizeof record); break;
    case RELEASE: refusal = norakkeun_record_release(m.job, m.tick, m.set, record, sizeof record); break;
    default: refusal = norakkeun_record_complete(m.job, m.tick, record, sizeof record); break;
    }
    return keep(record, refusal);
}

/* A line as the replay prints it, with the number of its record. Firmware would let the woken jobs run here. */
static void act_on(norakkeun_answer answer, const uint8_t *woken)
{
    uint32_t i;

    printf("%lu ", number);
    if (answer.refusal != NORAKKEUN_ACCEPTED) {
        printf("no %" PRIu32 "\n", answer.refusal);
        return;
    }
    printf(answer.said == NORAKKEUN_WAIT ? "wait" : "ok");
    for (i = 0; i < answer.woken; i++) {
        printf(" %u", woken[i]);
    }
    printf("\n");
}

/* How a job's request stands. */
static void tell_of(uint32_t job)
{
    norakkeun_job_report told = norakkeun_report_of(&table, job);

    if (told.refusal != NORAKKEUN_ACCEPTED) {
        fprintf(stderr, "no %" PRIu32 "\n", told.refusal);
        return;
    }
    fprintf(stderr, "report %" PRIu64 " %d %d %" PRIu32 " %" PRIu32 "\n", told.report.turn.place, told.report.token,
            told.report.waiting, told.report.ahead, told.report.in_way);
}

/* Who has waited for the limit or longer. Firmware would raise an alarm for each. */
static void watch(norakkeun_tick tick)
{
    uint8_t late[NORAKKEUN_JOBS] = {0};
    norakkeun_late_jobs told = norakkeun_overdue_of(&table, tick, late, sizeof late);
    uint32_t i;

    if (told.refusal != NORAKKEUN_ACCEPTED) {
        fprintf(stderr, "no %" PRIu32 "\n", told.refusal);
        return;
    }
    fprintf(stderr, "overdue %" PRIu32, told.count);
    for (i = 0; i < told.count; i++) {
        fprintf(stderr, " %u", late[i]);
    }
    fprintf(stderr, "\n");
}

/* The table goes to a spare drive by its service file. */
static void take_over(void)
{
    uint8_t file[NORAKKEUN_LONGEST_FILE] = {0};
    norakkeun_saved saved = norakkeun_save(table, file, sizeof file);
    norakkeun_told told = norakkeun_load(file, saved.length);

    if (saved.refusal != NORAKKEUN_ACCEPTED || told.refusal != NORAKKEUN_ACCEPTED) {
        fprintf(stderr, "save no %" PRIu32 ", load no %" PRIu32 "\n", saved.refusal, told.refusal);
        return;
    }
    table = told.table;
}

static void start(norakkeun_tick tick)
{
    uint8_t record[NORAKKEUN_RECORD] = {0};
    norakkeun_told told;

    keep(record, norakkeun_record_start(TOKENS, RESOURCES, tick, LIMIT_MS, record, sizeof record));
    told = norakkeun_start(TOKENS, RESOURCES, tick, LIMIT_MS);
    table = told.table;
    act_on((norakkeun_answer){told.refusal, told.said, told.woken}, NULL);
}

/* An event is recorded, handed over, and its answer acted on, in this order. */
static void take_event(message m)
{
    uint8_t woken[NORAKKEUN_JOBS] = {0};
    bool recorded = record_event(m);
    norakkeun_answer answer;

    switch (m.kind) {
    case BEAT: answer = norakkeun_beat_in(&table, m.tick); break;
    case OPEN: answer = norakkeun_open_in(&table, m.job, m.tick, m.set); break;
    case ASK: answer = norakkeun_ask_in(&table, m.job, m.tick, m.set); break;
    case RELEASE: answer = norakkeun_release_in(&table, m.job, m.tick, m.set); break;
    default: answer = norakkeun_complete_in(&table, m.job, m.tick, woken, sizeof woken); break;
    }
    if (recorded) { /* what has no record was refused and has no line */
        act_on(answer, woken);
    }
}

static void take(message m)
{
    switch (m.kind) {
    case REPORT: tell_of(m.job); break;
    case OVERDUE: watch(m.tick); break;
    case TAKE_OVER: take_over(); break;
    default: take_event(m); break;
    }
}

/* The last line of a listing: live requests, tokens in use. */
static void finish(void)
{
    uint32_t live = 0, job;

    for (job = 0; job < NORAKKEUN_JOBS; job++) {
        live += table.rows[job].turn.place != 0;
    }
    printf("end %" PRIu32 " %" PRIu32 "\n", live, live < table.tokens ? live : table.tokens);
}

/* What came in that night. A drive would take it from a queue. */
static const message night[] = {
    {BEAT, 0, {4293300000}, 0}, /* half an hour on: the clock must hear something at least every hour */
    {BEAT, 0, {4294967000}, 0}, /* 296 ms before the wrap */
    {OPEN, CURRENT_CONTROL, {4294967230}, GATE_DRIVER},
    {ASK, CURRENT_CONTROL, {4294967231}, GATE_DRIVER},
    {OPEN, BRAKE, {4294967240}, ENCODER_BUS + GATE_DRIVER},
    {ASK, BRAKE, {4294967240}, ENCODER_BUS + GATE_DRIVER},
    {REPORT, BRAKE, {0}, 0},
    {OVERDUE, 0, {4294967289}, 0}, /* 49 ms: nobody */
    {OVERDUE, 0, {4294967290}, 0}, /* 50 ms: the brake */
    {OPEN, DISPLAY, {4}, ENCODER_BUS}, /* after the wrap */
    {OPEN, TELEMETRY, {5}, GATE_DRIVER},
    {ASK, DISPLAY, {6}, ENCODER_BUS}, /* refused: no token */
    {OVERDUE, 0, {6}, 0}, /* the first test after the wrap: still the brake */
    {REPORT, BRAKE, {0}, 0},
    {TAKE_OVER, 0, {0}, 0}, /* with the brake still waiting */
    {COMPLETE, CURRENT_CONTROL, {20}, 0},
    {ASK, DISPLAY, {21}, ENCODER_BUS},
    {OPEN, NO_SUCH_JOB, {30}, ENCODER_BUS}, /* refused as 4, and without a record: the next one has number 13 */
    {RELEASE, BRAKE, {40}, ENCODER_BUS},
    {COMPLETE, BRAKE, {60}, 0},
    {ASK, TELEMETRY, {61}, GATE_DRIVER},
    {BEAT, 0, {4294967295}, 0}, /* refused: a stale tick */
    {COMPLETE, DISPLAY, {70}, 0},
    {COMPLETE, TELEMETRY, {71}, 0},
};

int main(int argc, char **argv)
{
    size_t i;

    if (norakkeun_version() != NORAKKEUN_VERSION) {
        fprintf(stderr, "example: the archive has version %" PRIu32 ", its header %d\n", norakkeun_version(),
                NORAKKEUN_VERSION);
        return EXIT_FAILURE;
    }
    recording = argc == 2 ? fopen(argv[1], "wb") : NULL;
    if (recording == NULL) {
        fprintf(stderr, "usage: example RECORDING\n");
        return 2;
    }
    start((norakkeun_tick){4291500000}); /* on day fifty of the counter, in the last hour before its wrap */
    for (i = 0; i < sizeof night / sizeof night[0]; i++) {
        take(night[i]);
    }
    finish();
    return fclose(recording) == 0 ? 0 : 2;
}
