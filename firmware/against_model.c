/* Answers as the programs replay and probe do, and loads and saves service files, by calls through the header and the
 * archive, so that .ci/compare can compare the linked library with the independent model:
 *
 *     against_model replay <recording     against_model probe <cases     against_model service <service-cases
 *     against_model in-place replay|probe|service, the same by the calls in place
 *
 * It has its own reading of records and of cases. Each good record is also written again, and each accepted file saved
 * again, and must give the same bytes. What is lent lies between canaries. A call in place is made by value too, and both
 * must leave and say the same; its table lies between canaries, and what the call has no business to write must be as it
 * was. Where that fails, standard error says what, and the status is 1. */
#include <inttypes.h>
#include <stdio.h>
#include <stdlib.h>
#include <string.h>

#include "norakkeun.h"

/* What the archive was compiled for; each array has a negative length if the header's compiler thinks otherwise. */
typedef char row_is_40_bytes[sizeof(norakkeun_row) == 40 ? 1 : -1];
typedef char table_is_32_bytes_and_rows[sizeof(norakkeun_table) == 32 + NORAKKEUN_JOBS * sizeof(norakkeun_row) ? 1 : -1];
typedef char time_is_at_16[offsetof(norakkeun_table, time) == 16 ? 1 : -1];
typedef char told_is_16_bytes_and_a_table[sizeof(norakkeun_told) == 16 + sizeof(norakkeun_table) ? 1 : -1];
typedef char told_table_is_at_16[offsetof(norakkeun_told, table) == 16 ? 1 : -1];
typedef char job_report_is_32_bytes[sizeof(norakkeun_job_report) == 32 ? 1 : -1];
typedef char late_jobs_is_8_bytes[sizeof(norakkeun_late_jobs) == 8 ? 1 : -1];
typedef char saved_is_8_bytes[sizeof(norakkeun_saved) == 8 ? 1 : -1];
typedef char answer_is_12_bytes[sizeof(norakkeun_answer) == 12 ? 1 : -1];

/* The calls by their numbers in a case. In a record the events have the same numbers, but a start has 5 and a give up 6. */
enum { BEAT, OPEN, ASK, RELEASE, COMPLETE, REPORT, OVERDUE, START, WRITE_BEAT, WRITE_START = 13, GIVE_UP, WRITE_GIVE_UP };
enum { START_RECORD = 5, GIVE_UP_RECORD, TABLE_BYTES = 22 + 40 * NORAKKEUN_JOBS, CASE_BYTES = 19 + TABLE_BYTES, LONGEST_LIST = 65535 };

/* The first byte of a service case. */
enum { LOAD, SAVE };

/* What is handed to a call. A start takes its numbers from the table. */
typedef struct call {
    uint64_t number;
    uint32_t job;
    norakkeun_tick tick;
    uint64_t set;
    norakkeun_table table;
} call;

static const norakkeun_table zero_table;
static bool in_place;

static void must(bool holds, const char *or_else)
{
    if (!holds) {
        fprintf(stderr, "against_model: %s\n", or_else);
        exit(1);
    }
}

/* ---- what is lent, between canaries */

/* On either side of what is lent. More than a table, so that one written at a wrong place is seen too. */
enum { CANARY = 4096 };

static uint8_t lent[CANARY + LONGEST_LIST + CANARY];

/* Never 0 and never a job, so that neither can be written there unseen. */
static uint8_t canary(size_t i) { return (uint8_t)(128 + 37 * i % 128); }

static void paint(uint8_t *bytes, size_t length)
{
    size_t i;

    for (i = 0; i < length; i++) {
        bytes[i] = canary(i);
    }
}

static bool painted(const uint8_t *bytes, size_t length)
{
    size_t i = 0;

    while (i < length && bytes[i] == canary(i)) {
        i++;
    }
    return i == length;
}

/* A list or room of this length, with what stands in it before it is lent. There is one at a time. */
static uint8_t *lend(size_t length)
{
    uint8_t *list = lent + CANARY;
    size_t i;

    paint(lent, CANARY);
    for (i = 0; i < length; i++) {
        list[i] = (uint8_t)(7 * i + 3);
    }
    paint(list + length, CANARY);
    return list;
}

static void must_have_stayed_in(size_t length)
{
    must(painted(lent, CANARY), "a call wrote before the list or room that it was lent");
    must(painted(lent + CANARY + length, CANARY), "a call wrote behind the list or room that it was lent");
}

/* ---- a table in place, between canaries */

/* From where to where a table has bytes of no field. */
enum { GAP = offsetof(norakkeun_table, limit) + sizeof(uint32_t), GAP_END = offsetof(norakkeun_table, time) };

static struct {
    uint8_t before[CANARY];
    norakkeun_table table;
    uint8_t behind[CANARY];
} place;

/* The bytes of the table before the call. */
static uint8_t kept[sizeof(norakkeun_table)];

static norakkeun_table *put_in_place(norakkeun_table table)
{
    paint(place.before, CANARY);
    paint(place.behind, CANARY);
    memcpy(&place.table, &table, sizeof table);
    paint((uint8_t *)&place.table + GAP, GAP_END - GAP);
    memcpy(kept, &place.table, sizeof kept);
    return &place.table;
}

static void must_have_left_the_rest(void)
{
    must(painted(place.before, CANARY), "a call in place wrote before its table");
    must(painted(place.behind, CANARY), "a call in place wrote behind its table");
    must(memcmp((uint8_t *)&place.table + GAP, kept + GAP, GAP_END - GAP) == 0,
         "a call in place wrote where no field of its table is");
}

static void must_have_left_all(const char *or_else)
{
    must_have_left_the_rest();
    must(memcmp(&place.table, kept, sizeof kept) == 0, or_else);
}

static bool same_fields(const norakkeun_table *a, const norakkeun_table *b)
{
    return a->tokens == b->tokens && a->resources == b->resources && a->limit == b->limit && a->time == b->time &&
           a->last.place == b->last.place && memcmp(a->rows, b->rows, sizeof a->rows) == 0;
}

/* ---- the calls */

static norakkeun_told event_by_value(call c, uint8_t *list, size_t length)
{
    switch (c.number) {
    case BEAT: return norakkeun_beat(c.table, c.tick);
    case OPEN: return norakkeun_open(c.table, c.job, c.tick, c.set);
    case ASK: return norakkeun_ask(c.table, c.job, c.tick, c.set);
    case RELEASE: return norakkeun_release(c.table, c.job, c.tick, c.set);
    case COMPLETE: return norakkeun_complete(c.table, c.job, c.tick, list, length);
    case GIVE_UP: return norakkeun_give_up(c.table, c.job, c.tick, c.set, list, length);
    default: return norakkeun_start(c.table.tokens, c.table.resources, c.tick, c.table.limit);
    }
}

static norakkeun_answer event_by_pointer(call c, norakkeun_table *table, uint8_t *list, size_t length)
{
    switch (c.number) {
    case BEAT: return norakkeun_beat_in(table, c.tick);
    case OPEN: return norakkeun_open_in(table, c.job, c.tick, c.set);
    case ASK: return norakkeun_ask_in(table, c.job, c.tick, c.set);
    case RELEASE: return norakkeun_release_in(table, c.job, c.tick, c.set);
    case COMPLETE: return norakkeun_complete_in(table, c.job, c.tick, list, length);
    default: return norakkeun_give_up_in(table, c.job, c.tick, c.set, list, length);
    }
}

/* The same list lent a second time, for the call by value that one in place is compared with. */
static uint8_t *lent_again(const uint8_t *list, size_t length)
{
    static uint8_t again[LONGEST_LIST];

    return memcpy(again, list, length);
}

/* A start has no table to change, so it is by value either way. */
static norakkeun_told event(call c, uint8_t *list, size_t length)
{
    norakkeun_told told;
    norakkeun_answer answered;
    uint8_t *again;

    if (!in_place || c.number == START) {
        return event_by_value(c, list, length);
    }
    again = lent_again(list, length);
    told = event_by_value(c, again, length);
    answered = event_by_pointer(c, put_in_place(c.table), list, length);
    must(answered.refusal == told.refusal && answered.said == told.said && answered.woken == told.woken,
         "an event in place is answered otherwise than by value");
    must(memcmp(list, again, length) == 0, "an event in place left another list than by value");
    if (answered.refusal == NORAKKEUN_ACCEPTED) {
        must_have_left_the_rest();
        must(same_fields(&place.table, &told.table), "an event in place left another table than by value");
    } else {
        must_have_left_all("a refused event in place wrote into its table");
    }
    told.table = place.table;
    return told;
}

static norakkeun_job_report report(call c)
{
    const norakkeun_job_report told = norakkeun_report(c.table, c.job);
    norakkeun_job_report of;

    if (!in_place) {
        return told;
    }
    of = norakkeun_report_of(put_in_place(c.table), c.job);
    must_have_left_all("a report wrote into its table");
    must(of.refusal == told.refusal && of.report.turn.place == told.report.turn.place &&
             of.report.token == told.report.token && of.report.waiting == told.report.waiting &&
             of.report.ahead == told.report.ahead && of.report.in_way == told.report.in_way,
         "a report in place is another than by value");
    return of;
}

static norakkeun_late_jobs overdue(call c, uint8_t *list, size_t length)
{
    norakkeun_late_jobs told, of;
    uint8_t *again;

    if (!in_place) {
        return norakkeun_overdue(c.table, c.tick, list, length);
    }
    again = lent_again(list, length);
    told = norakkeun_overdue(c.table, c.tick, again, length);
    of = norakkeun_overdue_of(put_in_place(c.table), c.tick, list, length);
    must_have_left_all("overdue wrote into its table");
    must(of.refusal == told.refusal && of.count == told.count, "overdue in place is answered otherwise than by value");
    must(memcmp(list, again, length) == 0, "overdue in place left another list than by value");
    return of;
}

static uint32_t record(call c, uint8_t *room, size_t length)
{
    switch (c.number) {
    case BEAT: return norakkeun_record_beat(c.tick, room, length);
    case OPEN: return norakkeun_record_open(c.job, c.tick, c.set, room, length);
    case ASK: return norakkeun_record_ask(c.job, c.tick, c.set, room, length);
    case RELEASE: return norakkeun_record_release(c.job, c.tick, c.set, room, length);
    case COMPLETE: return norakkeun_record_complete(c.job, c.tick, room, length);
    case GIVE_UP: return norakkeun_record_give_up(c.job, c.tick, c.set, room, length);
    default: return norakkeun_record_start(c.table.tokens, c.table.resources, c.tick, c.table.limit, room, length);
    }
}

/* ---- reading */

/* The number that stands in this many bits, most significant bit first; `at` moves past it. */
static uint64_t take(const uint8_t *bytes, size_t *at, unsigned width)
{
    uint64_t number = 0;

    for (; width > 0; width--, ++*at) {
        number = number * 2 + (bytes[*at / 8] >> (7 - *at % 8) & 1);
    }
    return number;
}

/* Takes a record apart; gives 0 or the refusal of reading. */
static uint32_t decode(const uint8_t *bytes, size_t length, call *c)
{
    size_t at = 0;
    uint64_t zero;

    if (length != NORAKKEUN_RECORD) {
        return NORAKKEUN_WRONG_LENGTH;
    }
    *c = (call){.number = take(bytes, &at, 3)};
    if (c->number > GIVE_UP_RECORD) {
        return NORAKKEUN_UNKNOWN_KIND;
    }
    if (c->number == START_RECORD) {
        c->number = START;
        c->table.tokens = (uint32_t)take(bytes, &at, 6) + 1;
        c->table.resources = (uint32_t)take(bytes, &at, 6) + 1;
        zero = take(bytes, &at, 1);
        c->tick.count = (uint32_t)take(bytes, &at, 32);
        c->table.limit = (uint32_t)take(bytes, &at, 32);
        zero |= take(bytes, &at, 32);
    } else {
        c->job = (uint32_t)take(bytes, &at, 6);
        zero = take(bytes, &at, 7);
        c->tick.count = (uint32_t)take(bytes, &at, 32);
        c->set = take(bytes, &at, 64);
        zero |= c->number == BEAT ? c->job | c->set : c->number == COMPLETE ? c->set : 0;
        c->number = c->number == GIVE_UP_RECORD ? GIVE_UP : c->number;
    }
    return zero == 0 ? NORAKKEUN_ACCEPTED : NORAKKEUN_BIT_SET;
}

static void decode_table(const uint8_t *bytes, norakkeun_table *table)
{
    size_t at = 0;
    norakkeun_row *row;

    table->tokens = (uint32_t)take(bytes, &at, 8);
    table->resources = (uint32_t)take(bytes, &at, 8);
    table->limit = (uint32_t)take(bytes, &at, 32);
    table->time = take(bytes, &at, 64);
    table->last.place = take(bytes, &at, 64);
    for (row = table->rows; row < table->rows + NORAKKEUN_JOBS; row++) {
        row->turn.place = take(bytes, &at, 64);
        row->declared = take(bytes, &at, 64);
        row->held = take(bytes, &at, 64);
        row->asked = take(bytes, &at, 64);
        row->since = take(bytes, &at, 64);
    }
}

/* Takes a case apart; gives the length of the list that it lends. */
static size_t decode_case(const uint8_t *bytes, call *c)
{
    size_t at = 0, length;

    c->number = take(bytes, &at, 8);
    c->job = (uint32_t)take(bytes, &at, 32);
    c->tick.count = (uint32_t)take(bytes, &at, 32);
    c->set = take(bytes, &at, 64);
    length = take(bytes, &at, 16);
    decode_table(bytes + at / 8, &c->table);
    return length;
}

/* ---- replay */

static void must_write_the_same(call c, const uint8_t *bytes)
{
    uint8_t *room = lend(NORAKKEUN_RECORD);

    must(record(c, room, NORAKKEUN_RECORD) == NORAKKEUN_ACCEPTED && memcmp(room, bytes, NORAKKEUN_RECORD) == 0,
         "a record was not written as it was read");
    must_have_stayed_in(NORAKKEUN_RECORD);
}

static void print_line(unsigned long number, uint32_t refusal, uint32_t said, uint32_t woken, const uint8_t *list)
{
    uint32_t i;

    if (refusal != NORAKKEUN_ACCEPTED) {
        printf("%lu no %" PRIu32 "\n", number, refusal);
        return;
    }
    printf("%lu %s", number, said == NORAKKEUN_WAIT ? "wait" : "ok");
    for (i = 0; i < woken; i++) {
        printf(" %u", list[i]);
    }
    printf("\n");
}

/* Prints the line of one record; gives the next table. The table before the start is the all-zero one. */
static norakkeun_table step(unsigned long number, const uint8_t *bytes, size_t length, norakkeun_table table)
{
    uint8_t *list;
    norakkeun_told told;
    call c;
    uint32_t refusal = decode(bytes, length, &c);

    if (refusal == NORAKKEUN_ACCEPTED) {
        must_write_the_same(c, bytes);
        if ((c.number == START) != (number == 1)) {
            refusal = NORAKKEUN_START_OUT_OF_PLACE;
        }
    }
    if (refusal != NORAKKEUN_ACCEPTED) {
        print_line(number, refusal, 0, 0, NULL);
        return table;
    }
    if (c.number != START) {
        c.table = table;
    }
    list = lend(NORAKKEUN_JOBS);
    told = event(c, list, NORAKKEUN_JOBS);
    must_have_stayed_in(NORAKKEUN_JOBS);
    print_line(number, told.refusal, told.said, told.woken, list);
    return told.table;
}

static void replay(void)
{
    uint8_t bytes[NORAKKEUN_RECORD];
    norakkeun_table table = zero_table;
    unsigned long number = 0;
    uint32_t live = 0, job;
    size_t length = fread(bytes, 1, sizeof bytes, stdin);

    do {
        table = step(++number, bytes, length, table);
        length = fread(bytes, 1, sizeof bytes, stdin);
    } while (table.tokens != 0 && length > 0);
    for (job = 0; job < NORAKKEUN_JOBS; job++) {
        live += table.rows[job].turn.place != 0;
    }
    printf("end %" PRIu32 " %" PRIu32 "\n", live, live < table.tokens ? live : table.tokens);
}

/* ---- probe */

static void print_list(const uint8_t *list, size_t length)
{
    size_t i;

    printf("list");
    for (i = 0; i < length; i++) {
        printf(" %u", list[i]);
    }
    printf("\n");
}

static void print_table(norakkeun_table table)
{
    const norakkeun_row *r;
    uint32_t job;

    printf("table %" PRIu32 " %" PRIu32 " %" PRIu32, table.tokens, table.resources, table.limit);
    printf(" %" PRIu64 " %" PRIu64, table.time, table.last.place);
    for (job = 0; job < NORAKKEUN_JOBS; job++) {
        r = &table.rows[job];
        if ((r->turn.place | r->declared | r->held | r->asked | r->since) != 0) {
            printf(" %" PRIu32 ":%" PRIu64 ",%" PRIu64, job, r->turn.place, r->declared);
            printf(",%" PRIu64 ",%" PRIu64 ",%" PRIu64, r->held, r->asked, r->since);
        }
    }
    printf("\n");
}

static void print_event(norakkeun_told told)
{
    static const char *const said[] = {"no", "token", "granted", "wait", "done", "woke"};

    if (told.said >= sizeof said / sizeof said[0] || (told.refusal != 0) != (told.said == 0) ||
        (told.said != NORAKKEUN_WOKE && told.woken != 0)) {
        printf("told %" PRIu32 " %" PRIu32 " %" PRIu32 "\n", told.refusal, told.said, told.woken);
        return;
    }
    printf("%s", said[told.said]);
    if (told.said == NORAKKEUN_REFUSED || told.said == NORAKKEUN_WOKE) {
        printf(" %" PRIu32, told.refusal + told.woken);
    }
    printf("\n");
}

static void print_report(norakkeun_job_report told)
{
    const norakkeun_report_of_job r = told.report;

    if (told.refusal == NORAKKEUN_ACCEPTED) {
        printf("report");
    } else {
        printf("no %" PRIu32, told.refusal);
    }
    if (told.refusal == 0 || r.turn.place != 0 || r.token || r.waiting || r.ahead != 0 || r.in_way != 0) {
        printf(" %" PRIu64 " %d %d %" PRIu32 " %" PRIu32, r.turn.place, r.token, r.waiting, r.ahead, r.in_way);
    }
    printf("\n");
}

static void print_late(norakkeun_late_jobs told)
{
    if (told.refusal != NORAKKEUN_ACCEPTED && told.count == 0) {
        printf("no %" PRIu32 "\n", told.refusal);
    } else {
        printf("overdue %" PRIu32 "\n", told.count);
    }
}

static void print_written(uint32_t refusal)
{
    if (refusal == NORAKKEUN_ACCEPTED) {
        printf("wrote\n");
    } else {
        printf("no %" PRIu32 "\n", refusal);
    }
}

/* The call of which this one writes the record, or itself if it writes none. */
static uint64_t written_by(uint64_t number)
{
    switch (number) {
    case WRITE_START: return START;
    case WRITE_GIVE_UP: return GIVE_UP;
    default: return number >= WRITE_BEAT && number < WRITE_START ? number - WRITE_BEAT : number;
    }
}

/* Makes a case's call and prints the answer and all that the call left behind. */
static void answer(call c, size_t length)
{
    uint8_t *list = lend(length);

    if (written_by(c.number) != c.number) {
        c.number = written_by(c.number);
        print_written(record(c, list, length));
        print_list(list, length);
        must_have_stayed_in(length);
        return;
    }
    if (c.number == REPORT) {
        print_report(report(c));
    } else if (c.number == OVERDUE) {
        print_late(overdue(c, list, length));
        print_list(list, length);
    } else {
        norakkeun_told told = event(c, list, length);

        print_event(told);
        if (c.number == COMPLETE || c.number == GIVE_UP) {
            print_list(list, length);
        }
        c.table = told.table;
    }
    print_table(c.table);
    must_have_stayed_in(length);
}

static void probe(void)
{
    static uint8_t bytes[CASE_BYTES];
    unsigned long number = 0;
    size_t length;
    call c;

    while ((length = fread(bytes, 1, sizeof bytes, stdin)) == sizeof bytes && bytes[0] <= WRITE_GIVE_UP) {
        length = decode_case(bytes, &c);
        printf("%lu ", ++number);
        answer(c, length);
    }
    if (length > 0) {
        printf("cut\n");
    }
}

/* ---- service */

static void must_save_the_same(norakkeun_table table, const uint8_t *file, size_t length)
{
    uint8_t *room = lend(length);
    norakkeun_saved saved = norakkeun_save(table, room, length);

    must(saved.refusal == NORAKKEUN_ACCEPTED && saved.length == length && memcmp(room, file, length) == 0,
         "a file was not saved again as it was loaded");
    must_have_stayed_in(length);
}

/* A loaded table is the caller's own from then on. A beat at its own time leaves it as it is; the all-zero table of a
 * refused load is not sound. */
static void must_go_on_in_place(norakkeun_told loaded)
{
    const call beat = {.number = BEAT, .tick = {(uint32_t)loaded.table.time}, .table = loaded.table};
    norakkeun_told told = event(beat, lend(0), 0);

    must(told.refusal == (loaded.refusal == NORAKKEUN_ACCEPTED ? NORAKKEUN_ACCEPTED : NORAKKEUN_UNSOUND_TABLE) &&
             same_fields(&told.table, &loaded.table),
         "a beat on a loaded table, at its own time, does not leave it as it is");
}

static void load(const uint8_t *file, size_t length)
{
    norakkeun_told told = norakkeun_load(file, length);

    print_event(told);
    print_table(told.table);
    if (told.refusal == NORAKKEUN_ACCEPTED) {
        must_save_the_same(told.table, file, length);
    }
    if (in_place) {
        must_go_on_in_place(told);
    }
}

static void save(const uint8_t *bytes, size_t length)
{
    uint8_t *room = lend(length);
    norakkeun_table table;
    norakkeun_saved saved;

    decode_table(bytes, &table);
    saved = norakkeun_save(table, room, length);
    if (saved.refusal == NORAKKEUN_ACCEPTED) {
        printf("saved");
    } else {
        printf("no %" PRIu32, saved.refusal);
    }
    if (saved.refusal == NORAKKEUN_ACCEPTED || saved.length != 0) {
        printf(" %" PRIu32, saved.length);
    }
    printf("\n");
    print_list(room, length);
    must_have_stayed_in(length);
}

static void service(void)
{
    static uint8_t head[3], rest[LONGEST_LIST];
    unsigned long number = 0;
    size_t got, length, wanted;

    while ((got = fread(head, 1, sizeof head, stdin)) == sizeof head && head[0] <= SAVE) {
        length = (size_t)head[1] * 256 + head[2];
        wanted = head[0] == LOAD ? length : TABLE_BYTES;
        if (fread(rest, 1, wanted, stdin) < wanted) {
            break;
        }
        printf("%lu ", ++number);
        if (head[0] == LOAD) {
            load(rest, length);
        } else {
            save(rest, length);
        }
    }
    if (got > 0) {
        printf("cut\n");
    }
}

int main(int argc, char **argv)
{
    const char *what;

    if (norakkeun_version() != NORAKKEUN_VERSION) {
        fprintf(stderr, "against_model: the archive is version %" PRIu32 " and the header version %d\n",
                norakkeun_version(), NORAKKEUN_VERSION);
        return 2;
    }
    in_place = argc == 3 && strcmp(argv[1], "in-place") == 0;
    what = argc == 2 + in_place ? argv[1 + in_place] : "";
    if (strcmp(what, "replay") == 0) {
        replay();
    } else if (strcmp(what, "probe") == 0) {
        probe();
    } else if (strcmp(what, "service") == 0) {
        service();
    } else {
        fprintf(stderr, "usage: against_model [in-place] replay|probe|service\n");
        return 2;
    }
    return ferror(stdin) || fflush(stdout) != 0 ? 2 : 0;
}
