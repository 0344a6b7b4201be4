/* The logs of two sessions under document 01's policy A, held against each other: in round 2 one client shows nothing and the
 * other credential 2, so that the logs part at record 1. */
#include <stdio.h>

#include "gate.h"
#include "policy_a.h"

enum { ROUNDS = 3 };

/* The log's length. A refused round has no record. */
static size_t play(const uint16_t shown[ROUNDS], gate_record log[ROUNDS]) {
    gate_session session = {{0}};
    size_t length = 0;
    if (GATE_REFUSAL(gate_open(16, &session))) return 0;
    for (int i = 0; i < ROUNDS; i++) {
        uint32_t reply = gate_round(policy, sizeof policy, &session, shown[i]);
        length += gate_log_record(shown[i], reply, &session, &log[length / sizeof *log]);
    }
    return length;
}

static void print(const gate_record *log, size_t length) {
    for (size_t i = 0; i < length; i++) printf("%02x%s", log[i / 8].bytes[i % 8], i % 8 == 7 ? "\n" : " ");
}

int main(void) {
    gate_record first[ROUNDS] = {{{0}}}, second[ROUNDS] = {{{0}}};
    size_t place = 0;
    size_t first_length = play((const uint16_t[]){0x0000, 0x0000, 0x0003}, first);
    size_t second_length = play((const uint16_t[]){0x0000, 0x0004, 0x0000}, second);
    uint32_t reply = gate_compare_logs(first->bytes, first_length, second->bytes, second_length, &place);
    print(first, first_length);
    print(second, second_length);
    if (GATE_REFUSAL(reply)) printf("refused %u\n", (unsigned)GATE_REFUSAL(reply));
    else if (GATE_ENDING(reply) == GATE_PART) printf("part %zu\n", place);
    else puts("agree");
    return GATE_REFUSAL(reply) != 0;
}
