/* The lock arbiter for firmware in C: the calls on a table, the writing of records and service files.
 *
 * A call whose name ends in _in takes a pointer to the caller's table and changes it, and one that ends in _of reads it;
 * the others take a table by value and hand the next one back. Both give the same answers, and no call remembers anything.
 * docs/FIRMWARE.md says what each call promises and what its caller owes. */
#ifndef NORAKKEUN_H
#define NORAKKEUN_H

#include <stdbool.h>
#include <stddef.h>
#include <stdint.h>

#ifdef __cplusplus
extern "C" {
#endif

enum {
    NORAKKEUN_VERSION = 1,        /* what norakkeun_version() answers in the archive that this header belongs to */
    NORAKKEUN_JOBS = 64,          /* jobs 0 to 63, and so the shortest list that may be lent */
    NORAKKEUN_RECORD = 14,        /* bytes of a record */
    NORAKKEUN_LONGEST_FILE = 2647 /* bytes of the service file of a table with 64 live rows */
};

/* The answer to an accepted event. */
enum {
    NORAKKEUN_REFUSED = 0, /* nothing: see the refusal */
    NORAKKEUN_TOKEN = 1,   /* open: the request has a token */
    NORAKKEUN_GRANTED = 2, /* ask: the whole set is held */
    NORAKKEUN_WAIT = 3,    /* open: no token yet; ask: the whole set is asked and comes in one step later */
    NORAKKEUN_DONE = 4,    /* start, beat, release, load */
    NORAKKEUN_WOKE = 5     /* complete, give up: as many jobs as `woken` says stand at the front of the lent list */
};

/* The refusals. The first that applies to the call is the one given: in the order of the numbers, but 23 after 5 and before
 * 6; for saving and loading in the order that stands beside them below. */
enum {
    NORAKKEUN_ACCEPTED = 0,
    NORAKKEUN_BAD_START = 1,        /* tokens, resources or limit out of range */
    NORAKKEUN_SHORT_LIST = 2,       /* a lent list shorter than 64 */
    NORAKKEUN_UNSOUND_TABLE = 3,    /* a table that is not sound */
    NORAKKEUN_NO_SUCH_JOB = 4,      /* a job above 63 */
    NORAKKEUN_CLOCK_GONE_BACK = 5,  /* a tick 2^31 ms or more ahead of true time: the clock has gone back */
    NORAKKEUN_TIME_SPENT = 6,       /* true time would pass 2^63-1 */
    NORAKKEUN_ALREADY_LIVE = 7,     /* the job has a live request */
    NORAKKEUN_NOT_LIVE = 8,         /* the job has none */
    NORAKKEUN_NO_TOKEN = 9,         /* its request has no token */
    NORAKKEUN_STILL_WAITING = 10,   /* an earlier ask still waits */
    NORAKKEUN_EMPTY_SET = 11,       /* the set is empty */
    NORAKKEUN_NO_SUCH_RESOURCE = 12, /* the set names a resource that the table does not have */
    NORAKKEUN_NOT_DECLARED = 13,    /* a member is not declared */
    NORAKKEUN_ALREADY_HELD = 14,    /* a member is held already */
    NORAKKEUN_NOT_HELD = 15,        /* a member is not held */
    NORAKKEUN_TURNS_SPENT = 16,     /* the last turn given is 2^63-1 */
    NORAKKEUN_WRONG_LENGTH = 17,    /* writing: room under 14 bytes */
    NORAKKEUN_UNKNOWN_KIND = 18,    /* a replay only: kind 7 */
    NORAKKEUN_BIT_SET = 19,         /* load, and a replay: a bit that must be 0 is 1 */
    NORAKKEUN_START_OUT_OF_PLACE = 20, /* a replay only: start not first, or first not start */
    NORAKKEUN_WRONG_SIZE = 21,      /* load: a service file of the wrong length; save: no room for it */
    NORAKKEUN_UNKNOWN_VERSION = 22, /* load: a service file of a version other than 1 */
    NORAKKEUN_CLOCK_LEAP = 23       /* a tick more than 3,600,000 ms ahead of true time; tested after 5 */
};

/* The drive's millisecond counter: 32 bits, 0 after 4294967295. A struct, so that no turn can stand in its place. */
typedef struct norakkeun_tick {
    uint32_t count;
} norakkeun_tick;

/* A place in line, given at opening: 1 for the first. A struct, so that no tick can stand in its place. */
typedef struct norakkeun_turn {
    uint64_t place;
} norakkeun_turn;

/* What is kept of a job's request; turn 0 makes the row idle. In a set, resource a is the bit of value 2^a. */
typedef struct norakkeun_row {
    norakkeun_turn turn;
    uint64_t declared;
    uint64_t held;
    uint64_t asked;
    uint64_t since; /* the true time since which it waits, 0 if it does not */
} norakkeun_row;

/* The table. Firmware keeps it and may read it; only the calls make the next one. */
typedef struct norakkeun_table {
    uint32_t tokens;     /* T, 1 to 64 */
    uint32_t resources;  /* R, 1 to 64 */
    uint32_t limit;      /* a wait of this many ms is overdue */
    uint64_t time;       /* true time in ms, which never wraps */
    norakkeun_turn last; /* the last turn given */
    norakkeun_row rows[NORAKKEUN_JOBS];
} norakkeun_table;

/* The answer to an event, how many jobs it woke, and the next table: after a refusal the same as before. */
typedef struct norakkeun_told {
    uint32_t refusal;
    uint32_t said;
    uint32_t woken;
    norakkeun_table table;
} norakkeun_told;

/* The answer to an event in place, and how many jobs it woke; the table is the caller's own. */
typedef struct norakkeun_answer {
    uint32_t refusal;
    uint32_t said;
    uint32_t woken;
} norakkeun_answer;

/* What a report says about a live request. */
typedef struct norakkeun_report_of_job {
    norakkeun_turn turn;
    bool token;
    bool waiting;
    uint32_t ahead;  /* live requests of lower turn */
    uint32_t in_way; /* those of them that still declare something that it still declares */
} norakkeun_report_of_job;

/* The answer to a report; with a refusal all of the report is 0. */
typedef struct norakkeun_job_report {
    uint32_t refusal;
    norakkeun_report_of_job report;
} norakkeun_job_report;

/* How many jobs are overdue; with a refusal, 0. */
typedef struct norakkeun_late_jobs {
    uint32_t refusal;
    uint32_t count;
} norakkeun_late_jobs;

/* How many bytes at the front of the lent room are the file; with a refusal, 0. */
typedef struct norakkeun_saved {
    uint32_t refusal;
    uint32_t length;
} norakkeun_saved;

/* Which archive is linked: the number of the release whose header says the same as NORAKKEUN_VERSION. */
uint32_t norakkeun_version(void);

/* The first table: all rows idle, true time is the tick. A refused start gives the all-zero table, which is not sound. */
norakkeun_told norakkeun_start(uint32_t tokens, uint32_t resources, norakkeun_tick tick, uint32_t limit);

/* Only the clock moves. Some event must be accepted at least every 3,600,000 ms; if there is no other, a beat. */
norakkeun_told norakkeun_beat(norakkeun_table table, norakkeun_tick tick);

/* The job's request becomes live with the next turn and this declared set. Says token or wait. */
norakkeun_told norakkeun_open(norakkeun_table table, uint32_t job, norakkeun_tick tick, uint64_t set);

/* Says granted, and the whole set is held; or wait, and the whole set is asked. */
norakkeun_told norakkeun_ask(norakkeun_table table, uint32_t job, norakkeun_tick tick, uint64_t set);

/* The members are no longer held. They stay declared, may be asked for again, and nobody is woken. */
norakkeun_told norakkeun_release(norakkeun_table table, uint32_t job, norakkeun_tick tick, uint64_t set);

/* The row becomes idle. The woken jobs stand at the front of the lent list in order of turn; later entries keep what
 * they had. */
norakkeun_told norakkeun_complete(norakkeun_table table, uint32_t job, norakkeun_tick tick, uint8_t *woken,
                                  size_t length);

/* The members leave this request's held and declared sets for good; it cannot ask for them again, and keeps its turn and its
 * token. Every set that waits and of which no earlier request declares a member any more is granted; the woken jobs stand at
 * the front of the lent list as with complete. */
norakkeun_told norakkeun_give_up(norakkeun_table table, uint32_t job, norakkeun_tick tick, uint64_t set, uint8_t *woken,
                                 size_t length);

/* The report of the job's request. */
norakkeun_job_report norakkeun_report(norakkeun_table table, uint32_t job);

/* The jobs whose wait up to this tick is the limit or more stand at the front of the lent list in order of turn; later
 * entries keep what they had. The clock does not move; the tick must lie within the hour after true time. */
norakkeun_late_jobs norakkeun_overdue(norakkeun_table table, norakkeun_tick tick, uint8_t *late, size_t length);

/* ---- the same in place: the events change the caller's table, the questions read it
 *
 * What *table holds afterwards is the next table of the call by value, and the answer its answer. On a refusal *table is as
 * it was, byte for byte. The pointer is not null, and nobody else reads or writes *table during the call. */

norakkeun_answer norakkeun_beat_in(norakkeun_table *table, norakkeun_tick tick);
norakkeun_answer norakkeun_open_in(norakkeun_table *table, uint32_t job, norakkeun_tick tick, uint64_t set);
norakkeun_answer norakkeun_ask_in(norakkeun_table *table, uint32_t job, norakkeun_tick tick, uint64_t set);
norakkeun_answer norakkeun_release_in(norakkeun_table *table, uint32_t job, norakkeun_tick tick, uint64_t set);
norakkeun_answer norakkeun_complete_in(norakkeun_table *table, uint32_t job, norakkeun_tick tick, uint8_t *woken,
                                       size_t length);
norakkeun_answer norakkeun_give_up_in(norakkeun_table *table, uint32_t job, norakkeun_tick tick, uint64_t set,
                                      uint8_t *woken, size_t length);
norakkeun_job_report norakkeun_report_of(const norakkeun_table *table, uint32_t job);
norakkeun_late_jobs norakkeun_overdue_of(const norakkeun_table *table, norakkeun_tick tick, uint8_t *late, size_t length);

/* Writing what is handed to the arbiter as a record: 14 bytes at the front of the lent room; later bytes keep what they
 * had. Each gives 0, or 1, 4 or 17 and the room is as before. */
uint32_t norakkeun_record_start(uint32_t tokens, uint32_t resources, norakkeun_tick tick, uint32_t limit, uint8_t *room,
                                size_t length);
uint32_t norakkeun_record_beat(norakkeun_tick tick, uint8_t *room, size_t length);
uint32_t norakkeun_record_open(uint32_t job, norakkeun_tick tick, uint64_t set, uint8_t *room, size_t length);
uint32_t norakkeun_record_ask(uint32_t job, norakkeun_tick tick, uint64_t set, uint8_t *room, size_t length);
uint32_t norakkeun_record_release(uint32_t job, norakkeun_tick tick, uint64_t set, uint8_t *room, size_t length);
uint32_t norakkeun_record_complete(uint32_t job, norakkeun_tick tick, uint8_t *room, size_t length);
uint32_t norakkeun_record_give_up(uint32_t job, norakkeun_tick tick, uint64_t set, uint8_t *room, size_t length);

/* The table's service file at the front of the lent room; later bytes keep what they had. Refused as 3, then 21, and the
 * room is as before. */
norakkeun_saved norakkeun_save(norakkeun_table table, uint8_t *room, size_t length);

/* The table of a service file, with the clock that it was saved with: the next tick must lie within the hour after it. Says
 * done; refused as 21, 22, 19, then 3, it gives the all-zero table, which is not sound. */
norakkeun_told norakkeun_load(const uint8_t *file, size_t length);

#ifdef __cplusplus
}
#endif

#endif
