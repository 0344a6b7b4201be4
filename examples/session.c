/* Document 01's case (a): policy A, and a client who shows nothing, nothing, and then credentials 0 and 1. */
#include <stdio.h>

#include "gate.h"
#include "policy_a.h"

int main(void) {
    const uint16_t shown[] = {0x0000, 0x0000, 0x0003};
    gate_session session = {{0}};
    uint32_t reply = gate_open(16, &session);
    for (int i = 0; i < 3 && !GATE_REFUSAL(reply); i++) {
        reply = gate_round(policy, sizeof policy, &session, shown[i]);
        printf("round %d got %04x ", GATE_COUNT(&session), shown[i]);
        if (GATE_REFUSAL(reply)) printf("refused %u\n", (unsigned)GATE_REFUSAL(reply));
        else if (GATE_ENDING(reply) == GATE_ASK) printf("ask %04x\n", GATE_ASKED(&session));
        else puts(GATE_ENDING(reply) == GATE_GRANT ? "grant" : "deny");
    }
    return GATE_REFUSAL(reply) != 0;
}
