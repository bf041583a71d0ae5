/* A run written as a recording: source 4 is unmasked and triggered. What is written is read back. */
#include <stdio.h>
#include <string.h>

#include "psic.h"

enum { COUNT = 2 };

int main(void) {
    static uint8_t list[PSIC_COMMAND_SIZE * COUNT], text[PSIC_TEXT_SIZE(COUNT)];
    static uint8_t commands[PSIC_COMMAND_SIZE * sizeof text];
    static uint64_t times[sizeof text];
    const psic_listed unmask = {PSIC_UNMASK, 4, 0}, trigger = {PSIC_TRIGGER, 4, 0}, too_large = {PSIC_TRIGGER, 256, 0};
    psic_set_command_at(list, 0, unmask);
    psic_set_command_at(list, 1, trigger);
    psic_written written = psic_write_run(list, COUNT, text, sizeof text);
    fwrite(text, 1, written.length, stdout);
    psic_report report = psic_read(text, written.length, commands, sizeof commands, times, sizeof text);
    printf("%zu bytes, and %u commands read back, %s\n", written.length, report.count,
           memcmp(commands, list, sizeof list) == 0 ? "the same" : "others");
    psic_set_command_at(list, 1, too_large);
    written = psic_write_run(list, COUNT, text, sizeof text);
    printf("trigger 256: %u, %s\n", (unsigned)written.number, psic_in_words(written.number));
    return 0;
}
