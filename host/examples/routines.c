/* A handover: request 1 runs on core 0, is interrupted there by request 3, waits, and is next claimed by core 1. */
#include <stdio.h>

#include "psic.h"

static void show(const char *what, const psic_routines *routines, psic_answer answer) {
    printf("%s: %s, id %u, cycles %u, active", what, psic_in_words(answer.number), answer.id.number, answer.cycles);
    for (uint16_t k = 0; k < psic_cores(&routines->state); k++) {
        printf(" %u", psic_routines_active(routines, psic_core_id_of(k)).number);
    }
    printf("\n");
}

int main(void) {
    psic_routines routines;
    psic_handovers handovers = {{{0}}};
    const psic_core_id core_0 = {0}, core_1 = {1};
    if (psic_routines_init(&routines, 3, 2).number != PSIC_OK) {
        return 1;
    }
    for (uint16_t id = 1; id <= 3; id++) {
        psic_routines_set_source_priority(&routines, psic_source_id_of(id), id);
        psic_routines_unmask(&routines, psic_source_id_of(id));
    }
    show("trigger 1", &routines, psic_routines_trigger(&routines, psic_source_id_of(1)));
    show("enter on core 0", &routines, psic_routines_enter(&routines, &handovers, core_0));
    show("trigger 2", &routines, psic_routines_trigger(&routines, psic_source_id_of(2)));
    show("enter on core 1", &routines, psic_routines_enter(&routines, &handovers, core_1));
    show("trigger 3", &routines, psic_routines_trigger(&routines, psic_source_id_of(3)));
    show("enter on core 0", &routines, psic_routines_enter(&routines, &handovers, core_0));
    show("exit on core 1", &routines, psic_routines_exit(&routines, core_1));
    show("enter on core 1", &routines, psic_routines_enter(&routines, &handovers, core_1));
    printf("from core 0 to core 1: %u\n", psic_handovers_at(&handovers, core_0, core_1));
    return 0;
}
