/* The header against the library, in C and in C++: T2 to T8 of document 01's table by the typed commands, the run of document 02's
 * request 2/14, every accessor, a list, dropped triggers counted, the calls on lent records, document 01's recording read, replayed and
 * written, a handover between interrupt routines, refusals of each kind that a host can meet, and the version. */
#include <errno.h>
#include <stdio.h>
#include <string.h>

#include "psic.h"

static int passed = 0;
static int failed = 0;

static void expect(bool holds, const char *what) {
    if (holds) {
        passed++;
    } else {
        printf("check.c: %s\n", what);
        failed++;
    }
}

static bool answers(psic_answer answer, psic_number number, uint16_t id, uint16_t cycles) {
    return answer.number == number && answer.id.number == id && answer.cycles == cycles;
}

/* 32 sources, 2 cores, every source unmasked with priority equal to its id. */
static void start(psic_state *state) {
    memset(state, 0xff, sizeof *state);
    expect(answers(psic_init(state, 32, 2), PSIC_OK, 0, 0), "32 sources and 2 cores are made");
    for (uint16_t id = 1; id <= 32; id++) {
        psic_set_source_priority(state, psic_source_id_of(id), id);
        psic_unmask(state, psic_source_id_of(id));
    }
}

static bool shows(const psic_state *state, uint16_t first, uint16_t second) {
    return psic_current_priority(state, psic_core_id_of(0)) == first && psic_current_priority(state, psic_core_id_of(1)) == second;
}

static bool owned(const psic_state *state, uint16_t id, psic_owner_kind kind, uint16_t core) {
    psic_owner owner = psic_owner_of(state, psic_source_id_of(id));
    return owner.kind == kind && owner.core.number == core;
}

static void table(void) {
    psic_state state;
    start(&state);
    const psic_core_id core_0 = psic_core_id_of(0);
    expect(answers(psic_trigger(&state, psic_source_id_of(4)), PSIC_OK, 0, 1) && shows(&state, 4, 0), "T2");
    expect(answers(psic_trigger(&state, psic_source_id_of(3)), PSIC_OK, 0, 1) && shows(&state, 4, 3), "T3");
    expect(answers(psic_trigger(&state, psic_source_id_of(5)), PSIC_OK, 0, 1) && shows(&state, 4, 5), "T4");
    expect(owned(&state, 3, PSIC_OWNER_SOURCE, 0) && owned(&state, 5, PSIC_OWNER_BOX, 1), "T4: 3 is put back");
    expect(answers(psic_claim(&state, core_0), PSIC_OK, 4, 0) && shows(&state, 4, 5), "T5");
    expect(owned(&state, 4, PSIC_OWNER_SOFTWARE, 0) && owned(&state, 6, PSIC_OWNER_NONE, 0), "T5: the software owns 4, nobody 6");
    expect(answers(psic_claim(&state, core_0), PSIC_EMPTY_BOX, 0, 0), "T5 again: 7");
    expect(answers(psic_set_source_priority(&state, psic_source_id_of(4), 9), PSIC_PRIORITY_IN_USE, 0, 0), "set 4, which is claimed: 9");
    expect(answers(psic_complete(&state, psic_source_id_of(5)), PSIC_NOT_CLAIMED, 0, 0), "T6: 8");
    expect(answers(psic_complete(&state, psic_source_id_of(4)), PSIC_OK, 0, 0) && shows(&state, 4, 5), "T7");
    expect(answers(psic_set_core_priority(&state, core_0, 0), PSIC_OK, 0, 3) && shows(&state, 5, 3), "T8");
    expect(answers(psic_claim(&state, core_0), PSIC_OK, 5, 0), "5 is claimed");
    expect(answers(psic_redeliver(&state, psic_source_id_of(5)), PSIC_OK, 0, 1) && shows(&state, 5, 5), "5 is delivered again");
}

/* Cores set to 3 and 1, a request of 3, then one of 9. */
static void fewest_cores(void) {
    psic_state state;
    start(&state);
    psic_set_core_priority(&state, psic_core_id_of(0), 3);
    psic_set_core_priority(&state, psic_core_id_of(1), 1);
    expect(answers(psic_trigger(&state, psic_source_id_of(3)), PSIC_OK, 0, 1) && shows(&state, 3, 3), "3 goes to core 1");
    expect(answers(psic_trigger(&state, psic_source_id_of(9)), PSIC_OK, 0, 1) && shows(&state, 3, 9), "9 goes where a box is filled");
    expect(!psic_box(&state, psic_core_id_of(0)).filled && owned(&state, 3, PSIC_OWNER_SOURCE, 0), "core 0 isn't interrupted");
}

static void refusals(void) {
    psic_state state;
    start(&state);
    const psic_state before = state;
    expect(answers(psic_set_core_priority(&state, psic_core_id_of(2), 0), PSIC_BAD_CORE, 0, 0), "3");
    expect(answers(psic_mask(&state, psic_source_id_of(33)), PSIC_BAD_SOURCE, 0, 0), "4");
    expect(answers(psic_set_source_priority(&state, psic_source_id_of(4), 128), PSIC_BAD_PRIORITY, 0, 0), "5");
    expect(psic_execute(state.bytes, sizeof state.bytes, 8, 4, 0) == PSIC_UNREADABLE, "a command's number above 7: 255");
    expect(psic_execute(state.bytes, sizeof state.bytes - 1, PSIC_TRIGGER, 4, 0) == PSIC_UNREADABLE, "a short buffer: 255");
    expect(psic_init(&state, 129, 2).number == PSIC_BAD_SIZE, "129 sources: 2");
    expect(memcmp(&state, &before, sizeof state) == 0, "a refusal leaves the state as it was");
    psic_trigger(&state, psic_source_id_of(4));
    expect(answers(psic_trigger(&state, psic_source_id_of(4)), PSIC_PENDING, 0, 0), "T12: 6");
    expect(psic_dropped(&state, psic_source_id_of(4)) == 1, "T12: it is counted");
    state.bytes[0] = 0; /* no sources */
    expect(answers(psic_trigger(&state, psic_source_id_of(4)), PSIC_UNSOUND, 0, 0), "1");
    expect(strcmp(psic_in_words(PSIC_EMPTY_BOX), "the box is empty") == 0, "7 in words");
    expect(strcmp(psic_in_words(77), "no number of this library") == 0, "77 in words");
}

static void accessors(void) {
    psic_state state;
    start(&state);
    psic_trigger(&state, psic_source_id_of(4));
    expect(psic_sources(&state) == 32 && psic_cores(&state) == 2 && psic_top_priority(&state) == 127, "sizes and top priority");
    psic_source source = psic_source_record(&state, psic_source_id_of(4));
    expect(source.configured == 4 && !source.masked && source.pending && source.delivered && source.priority == 4, "record of 4");
    expect(source.dropped == 0 && psic_dropped(&state, psic_source_id_of(4)) == 0, "nothing is dropped");
    psic_core core = psic_core_record(&state, psic_core_id_of(0));
    psic_message_box box = psic_box(&state, psic_core_id_of(0));
    expect(core.configured == 0 && core.message.filled && box.source.number == 4 && box.priority == 4 && !box.dirty, "core 0's box");
    expect(psic_source_record(&state, psic_source_id_of(0)).configured == 0, "no source 0");
    expect(psic_source_record(&state, psic_source_id_of(33)).configured == 0, "no source 33");
    expect(psic_current_priority(&state, psic_core_id_of(2)) == 0, "no core 2");
    memset(&state, 0xff, sizeof state);
    expect(psic_source_record(&state, psic_source_id_of(65535)).configured == 0, "any bytes can be read: sources");
    expect(psic_dropped(&state, psic_source_id_of(128)) == 65535 && psic_dropped(&state, psic_source_id_of(129)) == 0, "and counts");
    expect(psic_current_priority(&state, psic_core_id_of(65535)) == 0, "any bytes can be read: cores");
}

static void lists(void) {
    psic_state state;
    start(&state);
    const uint8_t list[3 * PSIC_COMMAND_SIZE] = {PSIC_TRIGGER, 4, 0, 0, 0, PSIC_CLAIM, 0, 0, 0, 0, PSIC_CLAIM, 0, 0, 0, 0};
    const uint8_t right[3 * PSIC_ANSWER_SIZE] = {0, 0, 0, 1, 0, 0, 4, 0, 0, 0, 7, 0, 0, 0, 0};
    uint8_t got[3 * PSIC_ANSWER_SIZE] = {0};
    expect(psic_run(state.bytes, sizeof state.bytes, list, sizeof list, got, sizeof got) == 3, "a list of three");
    expect(memcmp(got, right, sizeof right) == 0, "one cycle; id 4; 7");
    expect(psic_run(state.bytes, sizeof state.bytes, list, 3, got, sizeof got) == PSIC_NO_COUNT, "a cut list is refused");
    expect(psic_run(state.bytes, sizeof state.bytes, list, sizeof list, got, 14) == PSIC_NO_COUNT, "room for two answers only");
}

/* Whether the states differ in the count of this source alone, and it is this one. */
static bool counts(const psic_state *state, psic_state before, uint16_t id, uint16_t dropped) {
    size_t at = 4 + 9 * ((size_t)id - 1) + 7;
    before.bytes[at] = (uint8_t)(dropped & 0xff);
    before.bytes[at + 1] = (uint8_t)(dropped >> 8);
    return memcmp(state, &before, sizeof before) == 0 && psic_dropped(state, psic_source_id_of(id)) == dropped;
}

/* A list of 65,535 triggers of source 4, of which the first is accepted; then one more, and two more. */
static void dropped_triggers(void) {
    static uint8_t list[65535 * PSIC_COMMAND_SIZE], got[65535 * PSIC_ANSWER_SIZE];
    const psic_listed trigger = {PSIC_TRIGGER, 4, 0};
    psic_state state, before;
    start(&state);
    psic_trigger(&state, psic_source_id_of(3));
    psic_claim(&state, psic_core_id_of(0));
    before = state;
    expect(answers(psic_trigger(&state, psic_source_id_of(3)), PSIC_PENDING, 0, 0) && counts(&state, before, 3, 1), "of a claimed request");
    expect(answers(psic_trigger(&state, psic_source_id_of(33)), PSIC_BAD_SOURCE, 0, 0) && counts(&state, before, 3, 1), "4 counts nothing");
    before = state;
    psic_trigger(&before, psic_source_id_of(4));
    for (size_t i = 0; i < 65535; i++) {
        psic_set_command_at(list, i, trigger);
    }
    expect(psic_run(state.bytes, sizeof state.bytes, list, sizeof list, got, sizeof got) == 65535, "65,535 triggers");
    expect(answers(psic_answer_at(got, 0), PSIC_OK, 0, 1) && answers(psic_answer_at(got, 65534), PSIC_PENDING, 0, 0), "one is accepted");
    expect(counts(&state, before, 4, 65534), "65,534 are counted");
    expect(answers(psic_trigger(&state, psic_source_id_of(4)), PSIC_PENDING, 0, 0) && counts(&state, before, 4, 65535), "and one more");
    expect(answers(psic_trigger(&state, psic_source_id_of(4)), PSIC_PENDING, 0, 0) && counts(&state, before, 4, 65535), "65,535 is held");
    expect(PSIC_MAX_DROPPED == 65535, "at the largest count");
    before = state;
    state.bytes[4 + 9 * 32 + 7] = 1; /* the count of source 33, which there isn't */
    expect(answers(psic_trigger(&state, psic_source_id_of(3)), PSIC_UNSOUND, 0, 0), "a count past n: 1");
    state.bytes[4 + 9 * 32 + 7] = 0;
    expect(memcmp(&state, &before, sizeof state) == 0, "and it counts nothing");
}

static void lent_records(void) {
    psic_source sources[129] = {{1, true, true, false, 9, 0}, {1, false, true, false, 5, 0}, {1, false, true, false, 5, 65535}};
    psic_found found = psic_highest_in(sources, 3);
    expect(found.number == PSIC_OK && found.position == 2, "the first highest candidate of a lent list");
    expect(psic_highest_in(sources, 0).position == 0, "an empty list has none");
    found = psic_highest_in(sources, 129);
    expect(found.number == PSIC_BAD_SIZE && found.position == 0, "129 records: 2");
    psic_ranged ranged = psic_ranges_in(sources, 3);
    expect(ranged.number == PSIC_OK && ranged.ranges == 4, "a masked record and two candidates: the list, its left pair, and each of the two");
    expect(psic_ranges_in(sources, 0).ranges == 0, "no range of an empty list");
    ranged = psic_ranges_in(sources, 129);
    expect(ranged.number == PSIC_BAD_SIZE && ranged.ranges == 0, "129 records: 2, and no range");
    psic_core core = {1, {true, false, {7}, 3}};
    psic_claimed taken = psic_claim_in_place(&core);
    expect(taken.number == PSIC_OK && taken.id.number == 7 && core.configured == 3 && !core.message.filled, "a lent record is claimed");
    expect(psic_claim_in_place(&core).number == PSIC_EMPTY_BOX, "and is empty after that");
    psic_core bad = {3, {true, false, {7}, 3}};
    expect(psic_claim_in_place(&bad).number == PSIC_UNSOUND && bad.message.filled, "a box that isn't above its core: 1, left as lent");
}

/* Document 01's own recording: trigger 4 alone. */
static const char trigger_4[] = "$timescale 1 ns $end\n$scope module psic $end\n$var wire 1 ! stb $end\n$var wire 3 \" cmd $end\n"
                                "$var wire 5 # core $end\n$var wire 8 $ arg $end\n$var wire 9 % prio $end\n$upscope $end\n"
                                "$enddefinitions $end\n#0\nb100 \"\nb0 #\nb100 $\nb0 %\n1!\n#1\n0!\n";

enum { LENGTH = sizeof trigger_4 - 1 };

static bool reports(psic_report report, unsigned number, uint16_t count, uint64_t offset) {
    return report.number == number && report.count == count && report.offset == offset;
}

/* Whether every byte is 0x99, as before a call. */
static bool untouched(const void *bytes, size_t length) {
    for (size_t i = 0; i < length; i++) {
        if (((const uint8_t *)bytes)[i] != 0x99) {
            return false;
        }
    }
    return true;
}

static uint8_t text[LENGTH + 1];
static uint8_t commands[PSIC_COMMAND_SIZE * (LENGTH + 1)];
static uint64_t times[LENGTH + 1];

static psic_report read_text(void) {
    memset(commands, 0x99, sizeof commands);
    memset(times, 0x99, sizeof times);
    return psic_read(text, LENGTH, commands, sizeof commands, times, LENGTH + 1);
}

static void recordings(void) {
    memcpy(text, trigger_4, sizeof text);
    expect(psic_room(LENGTH) == LENGTH && psic_room(70000) == PSIC_MAX_COMMANDS, "room");
    expect(reports(read_text(), PSIC_OK, 1, LENGTH), "document 01's recording is read");
    psic_listed listed = psic_command_at(commands, 0);
    expect(listed.command == PSIC_TRIGGER && listed.at == 4 && listed.priority == 0 && times[0] == 0, "trigger 4 at time 0");
    expect(untouched(commands + PSIC_COMMAND_SIZE, sizeof commands - PSIC_COMMAND_SIZE), "what lies behind the command is left alone");
    expect(untouched(times + 1, sizeof times - sizeof times[0]), "what lies behind its time is left alone");
    text[LENGTH - 5] = '0'; /* #1 becomes #0 */
    expect(reports(read_text(), PSIC_TIME_NOT_RISING, 1, LENGTH - 6), "14 at the time, and the command before it stands");
    text[LENGTH - 5] = 'x';
    expect(reports(read_text(), PSIC_BAD_TEXT, 1, LENGTH - 6), "11 at the time, and the command before it stands");
    text[LENGTH - 9] = 'x'; /* 1! becomes x! */
    expect(reports(read_text(), PSIC_UNKNOWN_VALUE, 0, LENGTH - 6) && untouched(commands, sizeof commands), "13 comes before 11");
    text[55] = '2'; /* the width of stb */
    expect(reports(read_text(), PSIC_BAD_VARIABLE, 0, 59), "12 at stb");
    expect(strcmp(psic_in_words(PSIC_TOO_MANY_COMMANDS), "there is a command after the 65,535th") == 0, "19 in words");
}

static void no_room(void) {
    memset(commands, 0x99, sizeof commands);
    memset(times, 0x99, sizeof times);
    expect(reports(psic_read(text, LENGTH, commands, PSIC_COMMAND_SIZE * LENGTH - 1, times, LENGTH), PSIC_UNREADABLE, 0, 0), "255");
    expect(reports(psic_read(text, LENGTH, commands, sizeof commands, times, LENGTH - 1), PSIC_UNREADABLE, 0, 0), "255 for times");
    expect(untouched(commands, sizeof commands) && untouched(times, sizeof times), "without room nothing is written");
    expect(reports(psic_read(text, 0, commands, 0, times, 0), PSIC_BAD_TEXT, 0, 0), "an empty text needs no room and lacks all");
}

static void replays(void) {
    psic_state state, expected;
    uint8_t got[PSIC_ANSWER_SIZE * (LENGTH + 1)];
    const uint8_t *recording = (const uint8_t *)trigger_4;
    const size_t short_room = PSIC_ANSWER_SIZE * LENGTH - 1;
    psic_init(&expected, 32, 2);
    psic_trigger(&expected, psic_source_id_of(4));
    memset(&state, 0x99, sizeof state);
    memset(got, 0x99, sizeof got);
    expect(reports(psic_replay(33, 33, recording, LENGTH, state.bytes, sizeof state, got, sizeof got), PSIC_BAD_SIZE, 0, 0), "2 at 0");
    expect(reports(psic_replay(33, 33, recording, LENGTH, state.bytes, 1411, got, sizeof got), PSIC_UNREADABLE, 0, 0), "255 before 2");
    expect(reports(psic_replay(32, 2, recording, LENGTH, state.bytes, sizeof state, got, short_room), PSIC_UNREADABLE, 0, 0), "no room");
    expect(untouched(&state, sizeof state) && untouched(got, sizeof got), "nothing is written");
    expect(reports(psic_replay(32, 2, recording, LENGTH, state.bytes, sizeof state, got, sizeof got), PSIC_OK, 1, LENGTH), "a replay");
    expect(answers(psic_answer_at(got, 0), PSIC_OK, 0, 0), "4 is masked: accepted, no cycle");
    expect(untouched(got + PSIC_ANSWER_SIZE, sizeof got - PSIC_ANSWER_SIZE), "what lies behind the answers is left alone");
    expect(memcmp(&state, &expected, sizeof state) == 0, "the state is that of trigger 4");
}

/* A run of one command, written into the first bytes of a buffer that has some more. */
static psic_written write_one(psic_command command, uint16_t at, uint16_t priority, size_t room) {
    uint8_t list[PSIC_COMMAND_SIZE];
    const psic_listed listed = {command, at, priority};
    psic_set_command_at(list, 0, listed);
    memset(text, 0x99, sizeof text);
    return psic_write_run(list, 1, text, room);
}

static bool writes(psic_written written, psic_number number, size_t length) {
    return written.number == number && written.length == length;
}

static void written_runs(void) {
    expect(writes(write_one(PSIC_TRIGGER, 4, 0, sizeof text), PSIC_OK, LENGTH), "document 01's recording is written");
    expect(memcmp(text, trigger_4, LENGTH) == 0 && untouched(text + LENGTH, sizeof text - LENGTH), "its text, and nothing behind it");
    expect(writes(write_one(PSIC_TRIGGER, 4, 65535, LENGTH), PSIC_OK, LENGTH), "an exact fit; the priority isn't used");
    expect(memcmp(text, trigger_4, LENGTH) == 0 && untouched(text + LENGTH, sizeof text - LENGTH), "the unused priority is 0");
    expect(writes(write_one(PSIC_TRIGGER, 4, 0, LENGTH - 1), PSIC_UNWRITABLE, 0) && untouched(text, sizeof text), "a byte too few: 15");
    expect(writes(write_one(PSIC_TRIGGER, 256, 0, sizeof text), PSIC_UNWRITABLE, 0) && untouched(text, sizeof text), "id 256: 15");
    expect(writes(write_one(PSIC_CLAIM, 32, 0, sizeof text), PSIC_UNWRITABLE, 0), "core 32: 15");
    expect(writes(write_one(PSIC_SET_CORE_PRIORITY, 0, 512, sizeof text), PSIC_UNWRITABLE, 0), "priority 512: 15");
    const uint8_t unnamed[PSIC_COMMAND_SIZE] = {8, 4, 0, 0, 0};
    expect(writes(psic_write_run(unnamed, 1, text, sizeof text), PSIC_UNREADABLE, 0), "a command's number above 7: 255");
    expect(untouched(text, sizeof text), "a refusal leaves the buffer as it was");
    expect(strcmp(psic_in_words(PSIC_UNWRITABLE), psic_in_words(PSIC_UNREADABLE)) != 0, "15 in words");
}

/* 65,536 commands of the longest text: one too many; 65,535 of them are written and read back. */
static void longest_runs(void) {
    static uint8_t list[PSIC_COMMAND_SIZE * (PSIC_MAX_COMMANDS + 1)], read_back[PSIC_COMMAND_SIZE * PSIC_MAX_COMMANDS];
    static uint8_t longest[PSIC_TEXT_SIZE(PSIC_MAX_COMMANDS + 1)];
    static uint64_t stamps[PSIC_MAX_COMMANDS];
    const psic_listed listed = {PSIC_SET_SOURCE_PRIORITY, 255, 511};
    for (size_t i = 0; i <= PSIC_MAX_COMMANDS; i++) {
        psic_set_command_at(list, i, listed);
    }
    expect(psic_write(list, 3, longest, sizeof longest) == PSIC_UNREADABLE, "a cut list: 255");
    expect(writes(psic_write_run(list, PSIC_MAX_COMMANDS + 1, longest, sizeof longest), PSIC_UNWRITABLE, 0), "65,536 commands: 15");
    expect(writes(psic_write_run(list, 0, longest, sizeof longest), PSIC_OK, PSIC_TEXT_SIZE(0)), "an empty run is its definitions");
    psic_written written = psic_write_run(list, PSIC_MAX_COMMANDS, longest, sizeof longest);
    psic_written less = psic_write_run(list, PSIC_MAX_COMMANDS - 1, longest, sizeof longest);
    expect(written.number == PSIC_OK && written.length == less.length + 57, "the last of 65,535 commands has 57 bytes");
    written = psic_write_run(list, PSIC_MAX_COMMANDS, longest, PSIC_TEXT_SIZE(PSIC_MAX_COMMANDS));
    psic_report report = psic_read(longest, written.length, read_back, sizeof read_back, stamps, PSIC_MAX_COMMANDS);
    expect(reports(report, PSIC_OK, PSIC_MAX_COMMANDS, written.length), "65,535 commands are read back");
    expect(memcmp(read_back, list, sizeof read_back) == 0 && stamps[PSIC_MAX_COMMANDS - 1] == 131068, "the same ones, times counted");
}

/* Three sources, unmasked with priority equal to their id, on two cores. */
static void start_routines(psic_routines *routines) {
    memset(routines, 0x99, sizeof *routines);
    expect(answers(psic_routines_init(routines, 3, 33), PSIC_BAD_SIZE, 0, 0) && untouched(routines, sizeof *routines), "33 cores: 2");
    expect(answers(psic_routines_init(routines, 3, 2), PSIC_OK, 0, 0), "a simulation is made");
    for (uint16_t id = 1; id <= 3; id++) {
        expect(answers(psic_routines_set_source_priority(routines, psic_source_id_of(id), id), PSIC_OK, 0, 0), "priority");
        expect(answers(psic_routines_mask(routines, psic_source_id_of(id)), PSIC_OK, 0, 0), "mask");
        expect(answers(psic_routines_unmask(routines, psic_source_id_of(id)), PSIC_OK, 0, 0), "unmask");
    }
}

static bool active(const psic_routines *routines, uint16_t first, uint16_t second) {
    return psic_routines_active(routines, psic_core_id_of(0)).number == first
           && psic_routines_active(routines, psic_core_id_of(1)).number == second;
}

static bool last_held(const psic_routines *routines, uint16_t id, bool held, uint16_t core) {
    psic_holder last = psic_routines_last_holder(routines, psic_source_id_of(id));
    return last.held == held && last.core.number == core;
}

/* Request 1 runs on core 0, is interrupted there by 3, and is next claimed by core 1. */
static void handover(void) {
    psic_routines routines;
    psic_handovers handovers = {{{0}}};
    const psic_core_id core_0 = psic_core_id_of(0), core_1 = psic_core_id_of(1);
    start_routines(&routines);
    expect(answers(psic_routines_trigger(&routines, psic_source_id_of(1)), PSIC_OK, 0, 1), "1 is delivered");
    expect(answers(psic_routines_enter(&routines, &handovers, core_0), PSIC_OK, 1, 0) && active(&routines, 1, 0), "1 runs on core 0");
    psic_routines_trigger(&routines, psic_source_id_of(2));
    expect(answers(psic_routines_enter(&routines, &handovers, core_1), PSIC_OK, 2, 0) && active(&routines, 1, 2), "2 runs on core 1");
    psic_routines_trigger(&routines, psic_source_id_of(3));
    expect(answers(psic_routines_enter(&routines, &handovers, core_0), PSIC_OK, 3, 0) && active(&routines, 3, 2), "3 interrupts 1");
    expect(owned(&routines.state, 1, PSIC_OWNER_SOURCE, 0) && last_held(&routines, 1, true, 0), "1 waits, last held by core 0");
    expect(answers(psic_routines_exit(&routines, core_1), PSIC_OK, 0, 1) && active(&routines, 3, 0), "1 goes to core 1");
    expect(psic_handovers_at(&handovers, core_0, core_1) == 0, "not yet claimed there");
    expect(answers(psic_routines_enter(&routines, &handovers, core_1), PSIC_OK, 1, 0) && active(&routines, 3, 1), "1 runs on core 1");
    expect(psic_handovers_at(&handovers, core_0, core_1) == 1 && psic_handovers_at(&handovers, core_1, core_0) == 0, "a handover");
    expect(last_held(&routines, 1, true, 1) && last_held(&routines, 2, true, 1) && last_held(&routines, 3, true, 0), "last holders");
}

static void refused_routines(void) {
    psic_routines routines, before;
    psic_handovers handovers = {{{0}}};
    start_routines(&routines);
    before = routines;
    expect(answers(psic_routines_enter(&routines, &handovers, psic_core_id_of(2)), PSIC_BAD_CORE, 0, 0), "entry: 3");
    expect(answers(psic_routines_enter(&routines, &handovers, psic_core_id_of(0)), PSIC_EMPTY_BOX, 0, 0), "entry on an empty box: 7");
    expect(answers(psic_routines_exit(&routines, psic_core_id_of(0)), PSIC_NOT_CLAIMED, 0, 0), "exit on an idle core: 8");
    expect(answers(psic_routines_call(&routines, &handovers, PSIC_CLAIM, 0, 0), PSIC_UNREADABLE, 0, 0), "claim is no call: 255");
    expect(memcmp(&routines, &before, sizeof routines) == 0, "a refusal leaves the simulation as it was");
    psic_routines_mask(&routines, psic_source_id_of(1));
    psic_routines_trigger(&routines, psic_source_id_of(1));
    before = routines;
    expect(answers(psic_routines_trigger(&routines, psic_source_id_of(1)), PSIC_PENDING, 0, 0), "trigger of a pending source: 6");
    expect(counts(&routines.state, before.state, 1, 1), "it is counted");
    routines.state = before.state;
    expect(memcmp(&routines, &before, sizeof routines) == 0, "and nothing else changes");
    expect(active(&routines, 0, 0) && last_held(&routines, 1, false, 0), "idle cores, nothing held");
    routines.active[2] = 1;
    expect(psic_routines_active(&routines, psic_core_id_of(2)).number == 0, "no core 2");
    expect(answers(psic_routines_trigger(&routines, psic_source_id_of(1)), PSIC_UNSOUND, 0, 0), "a core past m isn't idle: 1");
    expect(!psic_routines_last_holder(&routines, psic_source_id_of(0)).held, "no source 0");
    expect(psic_handovers_at(&handovers, psic_core_id_of(0), psic_core_id_of(32)) == 0, "no core 32");
    memset(&routines, 0xff, sizeof routines);
    expect(psic_routines_active(&routines, psic_core_id_of(65535)).number == 0, "any numbers can be read: active ids");
    expect(!psic_routines_last_holder(&routines, psic_source_id_of(65535)).held, "any numbers can be read: last holders");
    expect(answers(psic_routines_trigger(&routines, psic_source_id_of(1)), PSIC_UNREADABLE, 0, 0), "flags of 255: 255");
}

/* The library's own calls: an entry, and a list that a number of no call ends. */
static void listed_routines(void) {
    psic_routines routines;
    psic_handovers handovers = {{{0}}};
    const uint8_t list[3 * PSIC_COMMAND_SIZE] = {PSIC_TRIGGER, 1, 0, 0, 0, PSIC_EXIT, 0, 0, 0, 0, PSIC_CLAIM, 1, 0, 0, 0};
    const uint8_t right[3 * PSIC_ANSWER_SIZE] = {0, 0, 0, 1, 0, 0, 0, 0, 2, 0, 9, 9, 9, 9, 9};
    uint8_t got[3 * PSIC_ANSWER_SIZE];
    memset(got, 9, sizeof got);
    start_routines(&routines);
    psic_routines_trigger(&routines, psic_source_id_of(3));
    expect(psic_enter(routines.state.bytes, sizeof routines.state, routines.active, 32, routines.holder, 128, 0) == 3 * 256, "id 3");
    expect(psic_enter(routines.state.bytes, sizeof routines.state, routines.active, 31, routines.holder, 128, 0) == 255, "31 cores: 255");
    expect(psic_simulate(routines.state.bytes, sizeof routines.state, routines.active, 32, routines.holder, 128, list, sizeof list, got,
                         sizeof got, &handovers.cells[0][0], PSIC_TABLE_CELLS) == 2, "two calls and a number that is none");
    expect(memcmp(got, right, sizeof right) == 0, "one cycle; two cycles, since exit takes 1 back and delivers it to core 0; the rest left");
    expect(psic_simulate(routines.state.bytes, sizeof routines.state, routines.active, 32, routines.holder, 128, list, sizeof list, got,
                         sizeof got, &handovers.cells[0][0], PSIC_TABLE_CELLS - 1) == PSIC_NO_COUNT, "a short table");
}

int main(void) {
    errno = 77;
    table();
    fewest_cores();
    refusals();
    accessors();
    lists();
    dropped_triggers();
    lent_records();
    recordings();
    no_room();
    replays();
    written_runs();
    longest_runs();
    handover();
    refused_routines();
    listed_routines();
    expect(errno == 77, "errno is left alone");
    expect(psic_version() == PSIC_VERSION, "the header is the library's");
    printf("%d passed, %d failed\n", passed, failed);
    return failed != 0;
}
