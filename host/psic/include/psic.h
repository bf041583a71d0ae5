/*
 * The proved model of the PSIC interrupt controller, for programs in C11 and C++11 on x86-64 Linux.
 *
 * tools/library builds libpsic.a and puts it beside this header; link with -lpsic, or by pkg-config. A controller's state is
 * PSIC_STATE_SIZE bytes that the host owns. "Document 01" is the paper of exact rules, "document 02" that of later requests; their words
 * are quoted.
 *
 *   psic_state state;
 *   if (psic_init(&state, 32, 2).number != PSIC_OK) ..               a fresh controller: 32 sources, 2 cores
 *   psic_unmask(&state, psic_source_id_of(4));
 *   psic_answer answer = psic_trigger(&state, psic_source_id_of(4));
 *   if (answer.number != PSIC_OK) puts(psic_in_words(answer.number));
 *   uint16_t shown = psic_current_priority(&state, psic_core_id_of(0));
 *   psic_report report = psic_replay(32, 2, text, length, state.bytes, sizeof state.bytes, answers, PSIC_ANSWER_SIZE * psic_room(length));
 *   psic_written written = psic_write_run(list, count, text, PSIC_TEXT_SIZE(count));
 *
 *   psic_routines routines;                                          the interrupt routines on all cores, simulated
 *   psic_handovers handovers = {{{0}}};
 *   if (psic_routines_init(&routines, 32, 2).number != PSIC_OK) ..
 *   psic_routines_enter(&routines, &handovers, psic_core_id_of(0));
 *
 * What holds of every call:
 *   - It ends and answers, whatever the bytes and numbers that it is given.
 *   - A number other than PSIC_OK leaves every buffer and record as it was, byte for byte, with id 0 and 0 cycles.
 *     That is also so of psic_init and psic_make: the state then has no content of theirs, so look at the number.
 *     One refusal alters a state: a trigger that PSIC_PENDING refuses is counted in its source's record, and all else stays as it was.
 *     That goes for every call that triggers: psic_execute, psic_trigger, psic_run, psic_replay, psic_simulate, psic_routines_call and
 *     psic_routines_trigger. A trigger refused by another number counts nothing, and no other call changes a count.
 *     The numbers 11 to 14 and 19 of a recording that is read are no such refusals: what was taken before the fault stands, and is
 *     written.
 *   - It allocates nothing, waits for nothing, keeps nothing between calls and doesn't touch errno. It may be called from a signal
 *     handler or an interrupt routine, and takes less than 16 KB of stack.
 *   - Threads may call at once on different states. On one state a call must be alone: the host locks, if it shares one.
 *   - The buffers and records of one call must not overlap, and no pointer may be null, also where its length is 0.
 */
#ifndef PSIC_H
#define PSIC_H

#include <stdbool.h>
#include <stddef.h>
#include <stdint.h>

/* The version of this header: ten thousand times the major number, a hundred times the minor one, and the patch. */
#define PSIC_VERSION 40000u
#define PSIC_VERSION_TEXT "4.0.0"

/* The largest sizes: "n sources, 1 to 128", "m cores, 1 to 32". */
#define PSIC_MAX_SOURCES 128u
#define PSIC_MAX_CORES 32u

/* Bytes of a state, of a command and of an answer; docs/ENCODING.md has their layout. */
#define PSIC_STATE_SIZE 1412u
#define PSIC_COMMAND_SIZE 5u
#define PSIC_ANSWER_SIZE 5u

/* Bytes of a simulation of the interrupt routines, and cells of its table of handovers. */
#define PSIC_ROUTINES_SIZE 1732u
#define PSIC_TABLE_CELLS 1024u

/* What a source's count of dropped triggers is held at. */
#define PSIC_MAX_DROPPED 65535u

/* The most commands that are taken from one recording, and that are written into one. */
#define PSIC_MAX_COMMANDS 65535u

/* The most bytes that the text of so many commands has where they are written: 197 of definitions, and up to 57 for a command. A set
 * source priority has that many from the 50,001st command on, where times have six digits. */
#define PSIC_TEXT_SIZE(commands) ((size_t)197 + (size_t)57 * (size_t)(commands))

/* The answer of psic_run and psic_simulate where they run nothing and write nothing. */
#define PSIC_NO_COUNT UINT64_MAX

#ifdef __cplusplus
#define PSIC_ASSERT_SIZE(type, size) static_assert(sizeof(type) == (size), #type " has the library's size")
#define PSIC_ASSERT_OFFSET(type, member, offset) static_assert(offsetof(type, member) == (offset), #type " has the library's layout")
extern "C" {
#else
#define PSIC_ASSERT_SIZE(type, size) _Static_assert(sizeof(type) == (size), #type " has the library's size")
#define PSIC_ASSERT_OFFSET(type, member, offset) _Static_assert(offsetof(type, member) == (offset), #type " has the library's layout")
#endif

/* ---- names for numbers ---- */

/* The eight commands, with document 01's effect of each before settling. */
typedef enum {
    PSIC_SET_SOURCE_PRIORITY = 0, /* "configured priority only"; refused on a pending source */
    PSIC_MASK = 1,                /* "sets the mask; a box keeps what it has" */
    PSIC_UNMASK = 2,              /* the same */
    PSIC_SET_CORE_PRIORITY = 3,   /* "configured priority; every filled box, on all cores, becomes dirty" */
    PSIC_TRIGGER = 4,             /* "pending, waiting, priority copied; also when masked" */
    PSIC_CLAIM = 5,               /* "answers the box's id; configured priority becomes the box's; box emptied" */
    PSIC_REDELIVER = 6,           /* "a claimed request waits again" */
    PSIC_COMPLETE = 7             /* "a claimed request ends; pending and delivered off" */
} psic_command;

/* What a simulation of the interrupt routines takes beside the commands 0, 1, 2 and 4, with document 02's words. */
typedef enum {
    PSIC_ENTER = 16, /* "entry claims, redelivers the interrupted request if there is one, and makes the new one active" */
    PSIC_EXIT = 17   /* "exit completes and sets the core to 0" */
} psic_routine;

/* Document 01's numbers for no, each with its row: "given exactly when, no earlier check refusing". They are checked in the order
 * 1, then 3 or 4, then 5, then 6, 7, 8 or 9. */
typedef enum {
    PSIC_OK = 0,
    PSIC_UNSOUND = 1,      /* "the state isn't sound, or a filled lent record is bad"; in a simulation "also unless each claimed request
                              is active on exactly one core, at that core's configured priority and last held by it, all other cores
                              idle at 0 and every last holder is below m" */
    PSIC_BAD_SIZE = 2,     /* "a controller is asked for with n or m out of range, or a lent list is too long" */
    PSIC_BAD_CORE = 3,     /* "core is m or above" */
    PSIC_BAD_SOURCE = 4,   /* "id is 0 or above n" */
    PSIC_BAD_PRIORITY = 5, /* "source priority 0 or above top; core priority above top" */
    PSIC_PENDING = 6,      /* "trigger of a pending source"; it is counted in the source's record */
    PSIC_EMPTY_BOX = 7,    /* "claim on an empty box, in a state or in a lent record"; "entry on an empty box" */
    PSIC_NOT_CLAIMED = 8,  /* "redeliver or complete of a request that isn't claimed"; "exit on an idle core" */
    PSIC_PRIORITY_IN_USE = 9, /* document 02's: "set source priority on a pending source", also to the priority that it has */
    /* document 02's, of a recording: the first fault in reading order, at one place in the order 13, 19, 11, 12, 14 */
    PSIC_BAD_TEXT = 11,          /* "text against that grammar or a time above 2^64 - 1" */
    PSIC_BAD_VARIABLE = 12,      /* "a variable missing, repeated, of another name or width, or a code used twice, shown at the name, a
                                    missing one at $enddefinitions" */
    PSIC_UNKNOWN_VALUE = 13,     /* "an x or z in stb at the end of a stamp, or at a strobe in cmd or a value that the command uses" */
    PSIC_TIME_NOT_RISING = 14,   /* "time not rising" */
    PSIC_TOO_MANY_COMMANDS = 19, /* "a command after the 65,535th" */
    /* document 02's, of a run that is to be written */
    PSIC_UNWRITABLE = 15, /* "a run of over 65,535 commands, a used value too large for its variable or a full text longer than the
                             lent buffer" */
    PSIC_UNREADABLE = 255 /* none of the papers': a state's buffer of another length or with a flag that is neither 0 nor 1, a
                             command's number above 7, a list that is no whole number of commands, a buffer without room for what a
                             recording may hold, or active ids or last holders of another length */
} psic_number;

/* A number for no in words; of another number, that it is none. */
static inline const char *psic_in_words(unsigned number) {
    switch (number) {
    case PSIC_OK: return "accepted";
    case PSIC_UNSOUND: return "the state isn't sound, or the lent record is bad";
    case PSIC_BAD_SIZE: return "a size is out of range, or the lent list is too long";
    case PSIC_BAD_CORE: return "there is no such core";
    case PSIC_BAD_SOURCE: return "there is no such source";
    case PSIC_BAD_PRIORITY: return "the priority is out of range";
    case PSIC_PENDING: return "the source is pending already";
    case PSIC_EMPTY_BOX: return "the box is empty";
    case PSIC_NOT_CLAIMED: return "the request isn't claimed";
    case PSIC_PRIORITY_IN_USE: return "the source is pending, so its priority stays";
    case PSIC_BAD_TEXT: return "the text is against the grammar, or a time is above 2^64 - 1";
    case PSIC_BAD_VARIABLE: return "a variable is missing, repeated, of another name or width, or its code is used twice";
    case PSIC_UNKNOWN_VALUE: return "stb, or a value that the command uses, has an x or z";
    case PSIC_TIME_NOT_RISING: return "the time isn't above the one before";
    case PSIC_TOO_MANY_COMMANDS: return "there is a command after the 65,535th";
    case PSIC_UNWRITABLE: return "there are over 65,535 commands, a value is too large for its variable, or the text for its buffer";
    case PSIC_UNREADABLE: return "the bytes can't be read";
    default: return "no number of this library";
    }
}

/* ---- records ---- */

/* A source's id, 1 to n; 0 means none. A type of its own, so that a core can't be handed where a source is due. */
typedef struct {
    uint16_t number;
} psic_source_id;

/* A core's number, 0 to m - 1. */
typedef struct {
    uint16_t number;
} psic_core_id;

static inline psic_source_id psic_source_id_of(uint16_t number) {
    psic_source_id id;
    id.number = number;
    return id;
}

static inline psic_core_id psic_core_id_of(uint16_t number) {
    psic_core_id core;
    core.number = number;
    return core;
}

/* A source and its request. */
typedef struct {
    uint16_t configured; /* the priority of its next request */
    bool masked;
    bool pending;
    bool delivered;
    uint16_t priority; /* the pending request's own priority, copied from the configured one at trigger; 0 if nothing is pending */
    uint16_t dropped;  /* the triggers refused by PSIC_PENDING, held at PSIC_MAX_DROPPED; no search looks at it */
} psic_source;

/* A core's box. An empty one has id 0, priority 0 and isn't dirty. */
typedef struct {
    bool filled;
    bool dirty;
    psic_source_id source;
    uint16_t priority;
} psic_message_box;

typedef struct {
    uint16_t configured;
    psic_message_box message;
} psic_core;

/* The answer of the search over a lent list: a psic_number, and position plus one of what it found, 0 for no candidate. */
typedef struct {
    uint8_t number;
    uint16_t position;
} psic_found;

/* The answer of the count of the ranges that this search looks into: a psic_number, and how many, 0 with a refusal. */
typedef struct {
    uint8_t number;
    uint16_t ranges;
} psic_ranged;

/* The answer of the claim of a lent record: a psic_number, and the claimed id. */
typedef struct {
    uint8_t number;
    psic_source_id id;
} psic_claimed;

/* The answer of the calls on a recording: a psic_number; how many commands were written or answered; and the offset of the first byte of
 * the word at which the number shows, or the text's length at its end. With PSIC_OK it is the text's length too. */
typedef struct {
    uint8_t number;
    uint16_t count;
    uint64_t offset;
} psic_report;

/* What a command answers: the claimed id is 0 but for an accepted claim or entry; the cycles are retractions plus deliveries. */
typedef struct {
    psic_number number;
    psic_source_id id;
    uint16_t cycles;
} psic_answer;

/* A controller's state. psic_init makes one; a copy is a controller of its own. */
typedef struct {
    uint8_t bytes[PSIC_STATE_SIZE];
} psic_state;

/* A simulation of the interrupt routines on all cores. psic_routines_init makes one; a copy is a simulation of its own. */
typedef struct {
    psic_state state;                  /* the controller's, open to everything that reads a state */
    uint16_t active[PSIC_MAX_CORES];   /* by core: the id of the request whose routine runs there; 0 if the core is idle */
    uint16_t holder[PSIC_MAX_SOURCES]; /* by source, source 1 first: the core that last held its request, plus one; 0 for none */
} psic_routines;

/* The count of handovers: "a table of cores by cores, how often a request last held by one (the row) was next claimed by another (a new
 * trigger is a new request), held at 65,535". All zeros at first. */
typedef struct {
    uint16_t cells[PSIC_MAX_CORES][PSIC_MAX_CORES];
} psic_handovers;

PSIC_ASSERT_SIZE(psic_source_id, 2);
PSIC_ASSERT_SIZE(psic_core_id, 2);
PSIC_ASSERT_SIZE(psic_source, 10);
PSIC_ASSERT_OFFSET(psic_source, priority, 6);
PSIC_ASSERT_OFFSET(psic_source, dropped, 8);
PSIC_ASSERT_SIZE(psic_message_box, 6);
PSIC_ASSERT_SIZE(psic_core, 8);
PSIC_ASSERT_SIZE(psic_found, 4);
PSIC_ASSERT_SIZE(psic_ranged, 4);
PSIC_ASSERT_SIZE(psic_claimed, 4);
PSIC_ASSERT_SIZE(psic_report, 16);
PSIC_ASSERT_SIZE(psic_state, PSIC_STATE_SIZE);
PSIC_ASSERT_SIZE(psic_routines, PSIC_ROUTINES_SIZE);
PSIC_ASSERT_OFFSET(psic_routines, active, 1412);
PSIC_ASSERT_OFFSET(psic_routines, holder, 1476);
PSIC_ASSERT_SIZE(psic_handovers, 2 * PSIC_TABLE_CELLS);

/* ---- the library's calls: proved, on any bytes ---- */

/* The library's version, to be held against PSIC_VERSION. */
uint32_t psic_version(void);

/* A fresh controller of n sources and m cores. As the next call, it answers number + 256 * id + 2^24 * cycles. */
uint64_t psic_make(uint16_t n, uint16_t m, uint8_t *state, size_t state_len);

/* One command, by its psic_command number, with the id or core and the priority. */
uint64_t psic_execute(uint8_t *state, size_t state_len, uint16_t number, uint16_t at, uint16_t priority);

/* A list of commands, PSIC_COMMAND_SIZE bytes each, and an answer of PSIC_ANSWER_SIZE bytes for each at the front of answers. A refused
 * command is answered and the list goes on; a command with a number above 7 ends it. Returns how many commands were taken;
 * PSIC_NO_COUNT, with nothing written, if the state can't be read, the list is no whole number of commands, or answers is shorter
 * than the list. */
uint64_t psic_run(uint8_t *state, size_t state_len, const uint8_t *list, size_t list_len, uint8_t *answers, size_t answers_len);

/* The first highest candidate of a lent list of at most 128 records, whatever they hold and have counted; a longer one is refused by 2. */
psic_found psic_highest_in(const psic_source *list, size_t list_len);

/* How many ranges of the comparator tree over such a list that search looks into: those with a candidate in them. The tree halves the
 * list until one record is left, and an odd range's left half is the larger. With d the least number for which 2^d is at least list_len,
 * they are at most d + 1 for each candidate. A list of over 128 records is refused by 2. */
psic_ranged psic_ranges_in(const psic_source *list, size_t list_len);

/* The claim of one lent core record: 1 if it is filled and its id isn't 1 to 128, or its box priority isn't 1 to 511 or isn't above the
 * configured one, or it is dirty; 7 if it is empty. */
psic_claimed psic_claim_in_place(psic_core *core);

/* For how many commands there must be room where a text of this length is read or replayed: how many it holds isn't known before. */
static inline size_t psic_room(size_t text_len) {
    return text_len < PSIC_MAX_COMMANDS ? text_len : PSIC_MAX_COMMANDS;
}

/* The commands of a recording: Value Change Dump text, cut down as document 01's last section says. Each is written as psic_run reads it,
 * PSIC_COMMAND_SIZE bytes, to the front of commands, and the time of the stamp at whose end it was taken to the front of times. The first
 * fault in reading order ends the reading; the commands before it stand, also one taken at its word, and the bytes and times behind them
 * stay as they were. Both buffers must have room for psic_room(text_len) commands and times (commands_len is in bytes, times_len in
 * times), else PSIC_UNREADABLE, offset 0, count 0, and nothing is written. */
psic_report psic_read(const uint8_t *text, size_t text_len, uint8_t *commands, size_t commands_len, uint64_t *times, size_t times_len);

/* A replay of a recording on a fresh controller of n sources and m cores, which goes on after a refused command: the state after it, and
 * an answer of PSIC_ANSWER_SIZE bytes for each command at the front of answers. Sizes out of range are PSIC_BAD_SIZE at offset 0 with
 * count 0, before any reading, and nothing is written. A state's buffer of another length than PSIC_STATE_SIZE, or answers without room
 * for psic_room(text_len) answers, is PSIC_UNREADABLE first of all. What the state's buffer holds before doesn't matter. */
psic_report psic_replay(uint16_t n, uint16_t m, const uint8_t *text, size_t text_len, uint8_t *state, size_t state_len, uint8_t *answers,
                        size_t answers_len);

/* A run of commands, PSIC_COMMAND_SIZE bytes each as psic_run reads them, as a recording: Value Change Dump text, which document 01 shows
 * whole for one command, in the front of text. "One command to two stamps, all four values each time, stb up and down, stamps counted from
 * 0. Values that a command doesn't use are 0"; "an empty run ends after the definitions". Reading it gives the same commands in the same
 * order. Answers number + 256 * length. PSIC_UNREADABLE if the list is no whole number of commands or has a command's number above 7;
 * PSIC_UNWRITABLE for over PSIC_MAX_COMMANDS commands, for an id above 255, a core above 31 or a priority above 511 that its command uses,
 * or for a text longer than text_len: no text is longer than PSIC_TEXT_SIZE of its commands. What lies behind the text stays as it was. */
uint64_t psic_write(const uint8_t *list, size_t list_len, uint8_t *text, size_t text_len);

/* A fresh simulation of n sources and m cores: a fresh controller, every core idle, nothing held. As the next two calls, it answers as
 * psic_make does; lengths are in bytes for the state, else in numbers. */
uint64_t psic_make_routines(uint16_t n, uint16_t m, uint8_t *state, size_t state_len, uint16_t *active, size_t active_len,
                            uint16_t *holder, size_t holder_len);

/* Entry of a routine on a core: it answers the claimed id. A handover isn't counted; psic_simulate counts. */
uint64_t psic_enter(uint8_t *state, size_t state_len, uint16_t *active, size_t active_len, uint16_t *holder, size_t holder_len,
                    uint16_t core);

/* Exit of the routine that is active on a core. */
uint64_t psic_exit(uint8_t *state, size_t state_len, uint16_t *active, size_t active_len, uint16_t *holder, size_t holder_len,
                   uint16_t core);

/* A list of calls on a simulation, PSIC_COMMAND_SIZE bytes each as psic_run's commands: PSIC_SET_SOURCE_PRIORITY, PSIC_MASK, PSIC_UNMASK,
 * PSIC_TRIGGER, PSIC_ENTER or PSIC_EXIT. An answer of PSIC_ANSWER_SIZE bytes for each is written to the front of answers, and handovers are
 * counted on in the table, PSIC_TABLE_CELLS numbers, the cell of row r and column c at 32 r + c. A refused call is answered, and the list
 * goes on; another number ends it. Returns how many calls were taken; PSIC_NO_COUNT, with nothing written, if the simulation can't be
 * read, the list is no whole number of calls, answers is shorter than the list, or the table has another length. */
uint64_t psic_simulate(uint8_t *state, size_t state_len, uint16_t *active, size_t active_len, uint16_t *holder, size_t holder_len,
                       const uint8_t *list, size_t list_len, uint8_t *answers, size_t answers_len, uint16_t *table, size_t table_len);

/* ---- a controller, by commands with types ---- */

/* The parts of a packed answer. */
static inline psic_answer psic_unpacked(uint64_t packed) {
    psic_answer answer;
    answer.number = (psic_number)(packed & 0xff);
    answer.id = psic_source_id_of((uint16_t)(packed >> 8));
    answer.cycles = (uint16_t)(packed >> 24);
    return answer;
}

/* A command of a list by its parts: the id or the core, and the priority, 0 where it has none. */
typedef struct {
    psic_command command;
    uint16_t at;
    uint16_t priority;
} psic_listed;

/* The command at position i of a list, and the answer at position i of a list of answers. */
static inline psic_listed psic_command_at(const uint8_t *list, size_t i) {
    const uint8_t *bytes = list + PSIC_COMMAND_SIZE * i;
    psic_listed listed;
    listed.command = (psic_command)bytes[0];
    listed.at = (uint16_t)(bytes[1] | bytes[2] << 8);
    listed.priority = (uint16_t)(bytes[3] | bytes[4] << 8);
    return listed;
}

static inline psic_answer psic_answer_at(const uint8_t *answers, size_t i) {
    const uint8_t *bytes = answers + PSIC_ANSWER_SIZE * i;
    psic_answer answer;
    answer.number = (psic_number)bytes[0];
    answer.id = psic_source_id_of((uint16_t)(bytes[1] | bytes[2] << 8));
    answer.cycles = (uint16_t)(bytes[3] | bytes[4] << 8);
    return answer;
}

/* Puts a command at position i of a list. */
static inline void psic_set_command_at(uint8_t *list, size_t i, psic_listed listed) {
    uint8_t *bytes = list + PSIC_COMMAND_SIZE * i;
    bytes[0] = (uint8_t)listed.command;
    bytes[1] = (uint8_t)(listed.at & 0xff);
    bytes[2] = (uint8_t)(listed.at >> 8);
    bytes[3] = (uint8_t)(listed.priority & 0xff);
    bytes[4] = (uint8_t)(listed.priority >> 8);
}

/* What writing a run answers: with PSIC_OK the text's length, else 0. */
typedef struct {
    psic_number number;
    size_t length;
} psic_written;

/* A run of so many commands, written. */
static inline psic_written psic_write_run(const uint8_t *list, size_t commands, uint8_t *text, size_t text_len) {
    uint64_t packed = psic_write(list, PSIC_COMMAND_SIZE * commands, text, text_len);
    psic_written written;
    written.number = (psic_number)(packed & 0xff);
    written.length = (size_t)(packed >> 8);
    return written;
}

/* A fresh controller: "every source masked, configured priority 1, nothing pending; every core at 0, boxes empty"; nothing dropped. */
static inline psic_answer psic_init(psic_state *state, uint16_t sources, uint16_t cores) {
    return psic_unpacked(psic_make(sources, cores, state->bytes, sizeof state->bytes));
}

static inline psic_answer psic_set_source_priority(psic_state *state, psic_source_id source, uint16_t priority) {
    return psic_unpacked(psic_execute(state->bytes, sizeof state->bytes, PSIC_SET_SOURCE_PRIORITY, source.number, priority));
}

static inline psic_answer psic_mask(psic_state *state, psic_source_id source) {
    return psic_unpacked(psic_execute(state->bytes, sizeof state->bytes, PSIC_MASK, source.number, 0));
}

static inline psic_answer psic_unmask(psic_state *state, psic_source_id source) {
    return psic_unpacked(psic_execute(state->bytes, sizeof state->bytes, PSIC_UNMASK, source.number, 0));
}

static inline psic_answer psic_set_core_priority(psic_state *state, psic_core_id core, uint16_t priority) {
    return psic_unpacked(psic_execute(state->bytes, sizeof state->bytes, PSIC_SET_CORE_PRIORITY, core.number, priority));
}

static inline psic_answer psic_trigger(psic_state *state, psic_source_id source) {
    return psic_unpacked(psic_execute(state->bytes, sizeof state->bytes, PSIC_TRIGGER, source.number, 0));
}

/* The one command that answers an id. */
static inline psic_answer psic_claim(psic_state *state, psic_core_id core) {
    return psic_unpacked(psic_execute(state->bytes, sizeof state->bytes, PSIC_CLAIM, core.number, 0));
}

static inline psic_answer psic_redeliver(psic_state *state, psic_source_id source) {
    return psic_unpacked(psic_execute(state->bytes, sizeof state->bytes, PSIC_REDELIVER, source.number, 0));
}

static inline psic_answer psic_complete(psic_state *state, psic_source_id source) {
    return psic_unpacked(psic_execute(state->bytes, sizeof state->bytes, PSIC_COMPLETE, source.number, 0));
}

/* ---- what a state holds: read from its bytes, which stay as they are ---- */

static inline uint16_t psic_word_at(const psic_state *state, size_t at) {
    return (uint16_t)(state->bytes[at] | state->bytes[at + 1] << 8);
}

static inline bool psic_flag_at(const psic_state *state, size_t at) {
    return state->bytes[at] == 1;
}

/* How many sources there are: n. */
static inline uint16_t psic_sources(const psic_state *state) {
    return psic_word_at(state, 0);
}

/* How many cores there are: m. */
static inline uint16_t psic_cores(const psic_state *state) {
    return psic_word_at(state, 2);
}

/* The top priority, 2^P - 1 with P = floor(log2 n) + 2. */
static inline uint16_t psic_top_priority(const psic_state *state) {
    uint32_t levels = 4;
    for (uint16_t n = psic_sources(state); n > 1; n >>= 1) {
        levels *= 2;
    }
    return (uint16_t)(levels - 1);
}

/* The record of a source. An id that is 0 or above n has a record of zeros, which no source of a sound state has. */
static inline psic_source psic_source_record(const psic_state *state, psic_source_id source) {
    psic_source record = {0, false, false, false, 0, 0};
    if (source.number != 0 && source.number <= psic_sources(state) && source.number <= PSIC_MAX_SOURCES) {
        size_t at = 4 + 9 * ((size_t)source.number - 1);
        record.configured = psic_word_at(state, at);
        record.masked = psic_flag_at(state, at + 2);
        record.pending = psic_flag_at(state, at + 3);
        record.delivered = psic_flag_at(state, at + 4);
        record.priority = psic_word_at(state, at + 5);
        record.dropped = psic_word_at(state, at + 7);
    }
    return record;
}

/* How many triggers of a source were refused by PSIC_PENDING; PSIC_MAX_DROPPED stands for so many or more. 0 if there is no such source. */
static inline uint16_t psic_dropped(const psic_state *state, psic_source_id source) {
    return psic_source_record(state, source).dropped;
}

/* The record of a core. A core that is m or above has that of a fresh one. */
static inline psic_core psic_core_record(const psic_state *state, psic_core_id core) {
    psic_core record = {0, {false, false, {0}, 0}};
    if (core.number < psic_cores(state) && core.number < PSIC_MAX_CORES) {
        size_t at = 1156 + 8 * (size_t)core.number;
        record.configured = psic_word_at(state, at);
        record.message.filled = psic_flag_at(state, at + 2);
        record.message.dirty = psic_flag_at(state, at + 3);
        record.message.source = psic_source_id_of(psic_word_at(state, at + 4));
        record.message.priority = psic_word_at(state, at + 6);
    }
    return record;
}

/* A core's box. */
static inline psic_message_box psic_box(const psic_state *state, psic_core_id core) {
    return psic_core_record(state, core).message;
}

/* A core's current priority: "the box's if filled, else the configured one". */
static inline uint16_t psic_current_priority(const psic_state *state, psic_core_id core) {
    psic_core record = psic_core_record(state, core);
    return record.message.filled ? record.message.priority : record.configured;
}

/* "Owner of a pending request: the source while not delivered; the box that holds it; the software if it is delivered and lies in no
 * box". */
typedef enum {
    PSIC_OWNER_NONE = 0, /* nothing is pending, or there is no such source */
    PSIC_OWNER_SOURCE = 1,
    PSIC_OWNER_BOX = 2,
    PSIC_OWNER_SOFTWARE = 3
} psic_owner_kind;

typedef struct {
    psic_owner_kind kind;
    psic_core_id core; /* of PSIC_OWNER_BOX, the core whose box it is; else 0 */
} psic_owner;

static inline psic_owner psic_owner_of(const psic_state *state, psic_source_id source) {
    psic_owner owner = {PSIC_OWNER_NONE, {0}};
    psic_source record = psic_source_record(state, source);
    if (!record.pending) {
        return owner;
    }
    owner.kind = record.delivered ? PSIC_OWNER_SOFTWARE : PSIC_OWNER_SOURCE;
    for (uint16_t k = 0; record.delivered && k < psic_cores(state) && k < PSIC_MAX_CORES; k++) {
        psic_message_box box = psic_box(state, psic_core_id_of(k));
        if (box.filled && box.source.number == source.number) {
            owner.kind = PSIC_OWNER_BOX;
            owner.core = psic_core_id_of(k);
            return owner;
        }
    }
    return owner;
}

/* ---- the interrupt routines, by calls with types; only an entry counts a handover, so it takes the table ---- */

/* A fresh simulation. The table of handovers isn't part of it: set it to zeros. */
static inline psic_answer psic_routines_init(psic_routines *routines, uint16_t sources, uint16_t cores) {
    return psic_unpacked(psic_make_routines(sources, cores, routines->state.bytes, sizeof routines->state.bytes, routines->active,
                                            PSIC_MAX_CORES, routines->holder, PSIC_MAX_SOURCES));
}

/* One call by its number, as a list of one. A number that names no call is PSIC_UNREADABLE. */
static inline psic_answer psic_routines_call(psic_routines *routines, psic_handovers *handovers, uint8_t number, uint16_t at,
                                             uint16_t priority) {
    const uint8_t list[PSIC_COMMAND_SIZE] = {number, (uint8_t)(at & 0xff), (uint8_t)(at >> 8), (uint8_t)(priority & 0xff),
                                             (uint8_t)(priority >> 8)};
    uint8_t answers[PSIC_ANSWER_SIZE] = {PSIC_UNREADABLE, 0, 0, 0, 0};
    psic_simulate(routines->state.bytes, sizeof routines->state.bytes, routines->active, PSIC_MAX_CORES, routines->holder,
                  PSIC_MAX_SOURCES, list, sizeof list, answers, sizeof answers, &handovers->cells[0][0], PSIC_TABLE_CELLS);
    return psic_answer_at(answers, 0);
}

/* One of the four commands, which count no handover. */
static inline psic_answer psic_routines_command(psic_routines *routines, psic_command command, psic_source_id source, uint16_t priority) {
    psic_handovers unused = {{{0}}};
    return psic_routines_call(routines, &unused, (uint8_t)command, source.number, priority);
}

static inline psic_answer psic_routines_set_source_priority(psic_routines *routines, psic_source_id source, uint16_t priority) {
    return psic_routines_command(routines, PSIC_SET_SOURCE_PRIORITY, source, priority);
}

static inline psic_answer psic_routines_mask(psic_routines *routines, psic_source_id source) {
    return psic_routines_command(routines, PSIC_MASK, source, 0);
}

static inline psic_answer psic_routines_unmask(psic_routines *routines, psic_source_id source) {
    return psic_routines_command(routines, PSIC_UNMASK, source, 0);
}

static inline psic_answer psic_routines_trigger(psic_routines *routines, psic_source_id source) {
    return psic_routines_command(routines, PSIC_TRIGGER, source, 0);
}

/* The one call that answers an id. A handover is counted on in the table. */
static inline psic_answer psic_routines_enter(psic_routines *routines, psic_handovers *handovers, psic_core_id core) {
    return psic_routines_call(routines, handovers, PSIC_ENTER, core.number, 0);
}

static inline psic_answer psic_routines_exit(psic_routines *routines, psic_core_id core) {
    return psic_unpacked(psic_exit(routines->state.bytes, sizeof routines->state.bytes, routines->active, PSIC_MAX_CORES, routines->holder,
                                   PSIC_MAX_SOURCES, core.number));
}

/* The id that is active on a core; 0 if the core is idle, or m or above. */
static inline psic_source_id psic_routines_active(const psic_routines *routines, psic_core_id core) {
    bool inside = core.number < psic_cores(&routines->state) && core.number < PSIC_MAX_CORES;
    return psic_source_id_of(inside ? routines->active[core.number] : 0);
}

/* The core that last held a source's request, also after the request's exit, until the next trigger. */
typedef struct {
    bool held; /* whether there is one */
    psic_core_id core;
} psic_holder;

static inline psic_holder psic_routines_last_holder(const psic_routines *routines, psic_source_id source) {
    psic_holder last = {false, {0}};
    bool inside = source.number <= psic_sources(&routines->state) && source.number <= PSIC_MAX_SOURCES;
    uint16_t holder = source.number != 0 && inside ? routines->holder[source.number - 1] : 0;
    if (holder != 0) {
        last.held = true;
        last.core = psic_core_id_of((uint16_t)(holder - 1));
    }
    return last;
}

/* How often a request last held by one core was next claimed by another; 0 if there is no such core. */
static inline uint16_t psic_handovers_at(const psic_handovers *handovers, psic_core_id row, psic_core_id column) {
    bool inside = row.number < PSIC_MAX_CORES && column.number < PSIC_MAX_CORES;
    return inside ? handovers->cells[row.number][column.number] : 0;
}

#ifdef __cplusplus
}
#endif

#endif
