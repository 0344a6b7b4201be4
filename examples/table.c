/* A table of eight slots under document 01's policy A: owner 1 takes five slots, owner 2 one, and the sessions at slots 0 and 5 are
 * played side by side, some rounds after a look at what they would answer. */
#include <stdio.h>

#include "gate.h"
#include "policy_a.h"

enum { SLOTS = 8 };

static gate_slot slots[SLOTS];

static void answer(size_t slot, uint32_t reply, const char *done) {
    printf("%zu ", slot);
    if (GATE_REFUSAL(reply)) printf("refused %u\n", (unsigned)GATE_REFUSAL(reply));
    else puts(done);
}

static void take(size_t slot, uint8_t owner) {
    answer(slot, gate_open_at(slots, sizeof slots, slot, owner, 16), "opened");
}

static void ends(size_t slot, const char *would, uint32_t reply, const gate_session *session) {
    printf("%zu %s", slot, would);
    if (GATE_ENDING(reply) == GATE_ASK) printf("ask %04x\n", GATE_ASKED(session));
    else puts(GATE_ENDING(reply) == GATE_GRANT ? "grant" : "deny");
}

static void look(size_t slot, uint16_t shown) {
    static gate_slot preview;
    uint32_t reply = gate_preview_at(policy, sizeof policy, slots, sizeof slots, slot, shown, &preview);
    if (!GATE_REFUSAL(reply)) ends(slot, "would ", reply, &preview.session);
    else printf("%zu would be refused %u%s\n", slot, (unsigned)GATE_REFUSAL(reply), preview.held ? "" : ", no session");
}

static void play(size_t slot, uint16_t shown) {
    uint32_t reply = gate_round_at(policy, sizeof policy, slots, sizeof slots, slot, shown);
    if (!GATE_REFUSAL(reply)) ends(slot, "", reply, &slots[slot].session);
    else answer(slot, reply, "");
}

int main(void) {
    for (size_t slot = 0; slot < 5; slot++) take(slot, 1); /* the fifth is one too many: 16 */
    take(0, 2);                                            /* unfinished: 15 */
    take(5, 2);
    take(SLOTS, 2);                                        /* no such slot: 14 */
    play(7, 0x0000);                                       /* empty: 8 */
    look(7, 0x0000);                                       /* and no session */
    look(0, 0x0003);
    look(0, 0x0000);                                       /* what is looked at is not played */
    play(0, 0x0000);
    play(5, 0x0000);
    play(0, 0x0000);
    play(0, 0x0003);
    look(0, 0x0000);                                       /* closed: 9, and the session is shown as it is */
    play(0, 0x0000);
    play(5, 0x0004);
    take(4, 1);                                            /* three are left: there is room */
    take(0, 2);                                            /* a closed session's slot may be taken by anyone */
    for (size_t slot = 0; slot < SLOTS; slot++) printf("%d%s", slots[slot].owner, slot + 1 < SLOTS ? " " : "\n");
    return 0;
}
