/* A recording replayed: source 4 is unmasked and triggered, core 0 claims its request, and finds an empty box when it claims again. */
#include <inttypes.h>
#include <stdio.h>

#include "psic.h"

static const char recording[] = "$var wire 1 ! stb $end $var wire 3 \" cmd $end $var wire 5 # core $end\n"
                                "$var wire 8 $ arg $end $var wire 9 % prio $end $enddefinitions $end\n"
                                "#10 b10 \" b100 $ 1! #11 0!\n"
                                "#20 b100 \" 1! #21 0!\n"
                                "#35 b101 \" b0 # 1! #36 0!\n"
                                "#50 1! #50 0!\n";

enum { LENGTH = sizeof recording - 1 };

int main(void) {
    static uint8_t commands[PSIC_COMMAND_SIZE * LENGTH], answers[PSIC_ANSWER_SIZE * LENGTH];
    static uint64_t times[LENGTH];
    const uint8_t *text = (const uint8_t *)recording;
    psic_state state;
    psic_read(text, LENGTH, commands, sizeof commands, times, LENGTH);
    psic_report report = psic_replay(32, 2, text, LENGTH, state.bytes, sizeof state.bytes, answers, sizeof answers);
    for (size_t i = 0; i < report.count; i++) {
        psic_listed command = psic_command_at(commands, i);
        psic_answer answer = psic_answer_at(answers, i);
        printf("#%" PRIu64 " command %u of %u: %s, id %u, cycles %u\n", times[i], command.command, command.at, psic_in_words(answer.number),
               answer.id.number, answer.cycles);
    }
    printf("core 0 shows %u\n", psic_current_priority(&state, psic_core_id_of(0)));
    printf("%u at byte %" PRIu64 ": %s\n", report.number, report.offset, psic_in_words(report.number));
    return 0;
}
