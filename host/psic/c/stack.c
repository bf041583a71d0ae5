/* How much stack a call of the library takes: a thread runs on a painted stack, and what is left of the paint tells.
 * To be linked with -z now: else the first call of memcpy or memset counts what the dynamic linker takes to find it. */
#define _GNU_SOURCE
#include <pthread.h>
#include <stdio.h>
#include <stdlib.h>
#include <string.h>

#include "psic.h"

#define STACK ((size_t)256 * 1024)
#define LIMIT ((size_t)16 * 1024) /* what the header says */
#define PAINT 0xa5

static psic_state state;
static psic_source sources[PSIC_MAX_SOURCES];

static void *nothing(void *unused) {
    return unused;
}

static void *make(void *unused) {
    return psic_init(&state, PSIC_MAX_SOURCES, PSIC_MAX_CORES).number == PSIC_OK ? unused : &state;
}

/* Each source is unmasked and triggered, and cores are set, so that boxes fill and are delivered anew. */
static void *run_list(void *unused) {
    static uint8_t answers[3 * PSIC_MAX_SOURCES * PSIC_ANSWER_SIZE];
    static uint8_t list[3 * PSIC_MAX_SOURCES * PSIC_COMMAND_SIZE];
    for (uint8_t i = 0; i < PSIC_MAX_SOURCES; i++) {
        uint8_t *command = list + 3 * PSIC_COMMAND_SIZE * i;
        const uint8_t three[3 * PSIC_COMMAND_SIZE] = {
            PSIC_UNMASK, (uint8_t)(i + 1), 0, 0, 0, PSIC_TRIGGER, (uint8_t)(i + 1), 0, 0, 0, PSIC_SET_CORE_PRIORITY, i % 32, 0, 0, 0};
        memcpy(command, three, sizeof three);
    }
    uint64_t taken = psic_run(state.bytes, sizeof state.bytes, list, sizeof list, answers, sizeof answers);
    return taken == 3 * PSIC_MAX_SOURCES && answers[0] == PSIC_OK ? unused : &state;
}

static void *each_command(void *unused) {
    for (uint16_t number = 0; number < 8; number++) {
        psic_execute(state.bytes, sizeof state.bytes, number, 1, 1);
    }
    return unused;
}

static void *lent_records(void *unused) {
    psic_core core = {0, {true, false, {1}, 1}};
    psic_highest_in(sources, PSIC_MAX_SOURCES);
    psic_ranges_in(sources, PSIC_MAX_SOURCES);
    psic_claim_in_place(&core);
    return unused;
}

/* A text of every form: skipped words, blocks, vectors of x and z, long words, commands of each kind, and a fault at its end. */
static size_t recording(char *text, size_t room) {
    size_t length = (size_t)snprintf(text, room, "%s%s%s", "$comment a b $end $var wire 1 ! stb $end $var wire 3 \" cmd $end ",
                                     "$var wire 5 # core $end $var wire 8 $ arg $end $var wire 9 % prio $end ",
                                     "$enddefinitions $end $dumpvars x! bx \" $end ");
    for (unsigned i = 0; i < 3 * PSIC_MAX_SOURCES; i++) {
        const char *form = "#%u b%u%u%u \" b101 # b1%u%u $ b%u1 %% 1! $comment - $end #%050u 0! ";
        length += (size_t)snprintf(text + length, room - length, form, 2 * i, i / 4 % 2, i / 2 % 2, i % 2, i / 16 % 2, i / 8 % 2,
                                   i / 32 % 2, 2 * i + 1);
    }
    length += (size_t)snprintf(text + length, room - length, "b%0900u $", 1u);
    return length;
}

static char text[65536];
static size_t length;

static void *read_recording(void *unused) {
    static uint8_t commands[PSIC_COMMAND_SIZE * sizeof text];
    static uint64_t times[sizeof text];
    psic_report report = psic_read((const uint8_t *)text, length, commands, sizeof commands, times, sizeof text);
    return report.count == 3 * PSIC_MAX_SOURCES && report.number == PSIC_BAD_TEXT ? unused : text;
}

static void *replay_recording(void *unused) {
    static uint8_t answers[PSIC_ANSWER_SIZE * sizeof text];
    psic_report report = psic_replay(PSIC_MAX_SOURCES, PSIC_MAX_CORES, (const uint8_t *)text, length, state.bytes, sizeof state.bytes,
                                     answers, sizeof answers);
    return report.count == 3 * PSIC_MAX_SOURCES && report.number == PSIC_BAD_TEXT ? unused : text;
}

/* As many commands as can be written, of the longest text. */
static void *write_recording(void *unused) {
    static uint8_t list[PSIC_COMMAND_SIZE * PSIC_MAX_COMMANDS];
    static uint8_t written[PSIC_TEXT_SIZE(PSIC_MAX_COMMANDS)];
    const psic_listed longest = {PSIC_SET_SOURCE_PRIORITY, 255, 511};
    for (size_t i = 0; i < PSIC_MAX_COMMANDS; i++) {
        psic_set_command_at(list, i, longest);
    }
    return psic_write_run(list, PSIC_MAX_COMMANDS, written, sizeof written).number == PSIC_OK ? unused : list;
}

static psic_routines routines;
static uint16_t handovers[PSIC_TABLE_CELLS];

static void *make_routines(void *unused) {
    return psic_routines_init(&routines, PSIC_MAX_SOURCES, PSIC_MAX_CORES).number == PSIC_OK ? unused : &routines;
}

/* Sources of rising priority are triggered and entered, core after core, so that routines are interrupted and wait, while others exit. */
static void *simulate(void *unused) {
    static uint8_t answers[5 * PSIC_MAX_SOURCES * PSIC_ANSWER_SIZE];
    static uint8_t list[5 * PSIC_MAX_SOURCES * PSIC_COMMAND_SIZE];
    for (uint8_t i = 0; i < PSIC_MAX_SOURCES; i++) {
        const uint8_t id = (uint8_t)(i + 1), core = i % PSIC_MAX_CORES;
        const uint8_t five[5 * PSIC_COMMAND_SIZE] = {PSIC_SET_SOURCE_PRIORITY, id, 0, id, 0, PSIC_UNMASK, id, 0, 0, 0, PSIC_TRIGGER, id, 0,
                                                     0, 0, PSIC_ENTER, core, 0, 0, 0, PSIC_EXIT, (uint8_t)(31 - i / 4), 0, 0, 0};
        memcpy(list + sizeof five * i, five, sizeof five);
    }
    uint64_t taken = psic_simulate(routines.state.bytes, sizeof routines.state, routines.active, PSIC_MAX_CORES, routines.holder,
                                   PSIC_MAX_SOURCES, list, sizeof list, answers, sizeof answers, handovers, PSIC_TABLE_CELLS);
    return taken == 5 * PSIC_MAX_SOURCES && answers[0] == PSIC_OK ? unused : &routines;
}

/* Each core enters, where its box is filled, and exits. */
static void *enter_and_exit(void *unused) {
    for (uint16_t core = 0; core < PSIC_MAX_CORES; core++) {
        psic_enter(routines.state.bytes, sizeof routines.state, routines.active, PSIC_MAX_CORES, routines.holder, PSIC_MAX_SOURCES, core);
        psic_exit(routines.state.bytes, sizeof routines.state, routines.active, PSIC_MAX_CORES, routines.holder, PSIC_MAX_SOURCES, core);
    }
    return unused;
}

/* The bytes of a fresh stack that a thread doing this has written to. */
static size_t taken_by(void *(*doing)(void *)) {
    unsigned char *stack = (unsigned char *)aligned_alloc(4096, STACK);
    pthread_attr_t attributes;
    pthread_t thread;
    void *failed = NULL;
    memset(stack, PAINT, STACK);
    if (pthread_attr_init(&attributes) != 0 || pthread_attr_setstack(&attributes, stack, STACK) != 0
        || pthread_create(&thread, &attributes, doing, NULL) != 0 || pthread_join(thread, &failed) != 0 || failed != NULL) {
        return STACK;
    }
    size_t left = 0;
    while (left < STACK && stack[left] == PAINT) {
        left++;
    }
    free(stack);
    return STACK - left;
}

int main(void) {
    void *(*const calls[])(void *) = {make,           run_list,         each_command,    lent_records,
                                      read_recording, replay_recording, write_recording, make_routines,
                                      simulate,       enter_and_exit};
    const char *const names[] = {"psic_make",     "psic_run",    "psic_execute", "the calls on lent records",
                                 "psic_read",     "psic_replay", "psic_write",   "psic_make_routines",
                                 "psic_simulate", "psic_enter and psic_exit"};
    const int count = (int)(sizeof calls / sizeof calls[0]);
    int failed = 0;
    size_t base = taken_by(nothing);
    length = recording(text, sizeof text);
    for (int i = 0; i < count; i++) {
        size_t taken = taken_by(calls[i]) - base;
        printf("stack: %s: %zu bytes\n", names[i], taken);
        failed += taken >= LIMIT;
    }
    printf("%d passed, %d failed\n", count - failed, failed);
    return failed != 0;
}
