// Two light beams on four cores: both requests are delivered at once, and each is claimed where it lies.
#include <iostream>

#include "psic.h"

static void show(const char *what, const psic_state &state, psic_answer answer) {
    std::cout << what << ": " << psic_in_words(answer.number) << ", id " << answer.id.number << ", cycles " << answer.cycles
              << ", current priorities";
    for (uint16_t k = 0; k < psic_cores(&state); k++) {
        std::cout << ' ' << psic_current_priority(&state, psic_core_id{k});
    }
    std::cout << '\n';
}

int main() {
    psic_state state;
    const psic_source_id first_beam{1}, second_beam{2};
    const psic_core_id core_0{0};
    if (psic_version() != PSIC_VERSION || psic_init(&state, 2, 4).number != PSIC_OK) {
        return 1;
    }
    psic_set_source_priority(&state, first_beam, 7);
    psic_set_source_priority(&state, second_beam, 7);
    psic_unmask(&state, first_beam);
    psic_unmask(&state, second_beam);
    show("first beam", state, psic_trigger(&state, first_beam));
    show("second beam", state, psic_trigger(&state, second_beam));
    show("claim on core 0", state, psic_claim(&state, core_0));
    show("claim again", state, psic_claim(&state, core_0));
    show("first beam done", state, psic_complete(&state, first_beam));
    show("core 0 idle", state, psic_set_core_priority(&state, core_0, 0));
}
