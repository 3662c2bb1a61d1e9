/*
 * Document 01's first run on plan T: Launch (0,0,0) in round 0 is booked in round 2 and waits at the passive from round
 * 4 on; accepted there, its ACK is there in round 7 with slot 1, hub 1: looked at, shown, and only then dropped. Prints
 * every call with its answer.
 *
 *     cc -I include examples/c/first_run.c target/staticlib/libexport.a -o first_run
 */
#include <stdio.h>

#include "pandabrass.h"

static const uint8_t PLAN[] = {0x08, 0x42, 0x11, 0x24, 0x92, 0x4C, 0x06, 0x00, 0x00, 0x00, 0x20};

/* The network's state; room for any plan. */
static uint8_t state[PANDABRASS_LARGEST_STATE];

static void say(const char *call, uint32_t answer)
{
    printf("%s: %u\n", call, (unsigned)answer);
}

/* The phases READ and EXECUTE of a round; its WRITE comes next. */
static void to_write(int round)
{
    printf("round %d\n", round);
    say("  Read", pandabrass_read(PLAN, sizeof PLAN, state, sizeof state));
    say("  Execute", pandabrass_execute(PLAN, sizeof PLAN, state, sizeof state));
}

static void end_round(void)
{
    say("  Write", pandabrass_write(PLAN, sizeof PLAN, state, sizeof state));
}

/* Shows what waits for active 0, if something does, and then drops it: the allowance is back, an ACK's connection is
 * accepted. */
static void show_and_drop(void)
{
    static const char *const kinds[] = {"SETUP", "TDOWN", "ACK", "NACK"};
    uint8_t out[8];
    uint32_t answer = pandabrass_look(PLAN, sizeof PLAN, state, sizeof state, 0, out);
    say("  Look(0)", answer);
    if (answer == PANDABRASS_ACCEPTED) {
        struct pandabrass_packet packet = pandabrass_packet_of(out);
        printf("    %s, active %u, passive %u, slot %u, hub %u\n", kinds[packet.kind], packet.active, packet.passive,
               packet.slot, packet.hub);
        say("  Drop(0)", pandabrass_drop(PLAN, sizeof PLAN, state, sizeof state, 0));
    }
}

/* An entry of the table of router 0. */
static void entry(uint32_t side, uint32_t slot)
{
    uint8_t out[8];
    uint32_t answer = pandabrass_entry(PLAN, sizeof PLAN, state, sizeof state, 0, side, slot, out);
    printf("Entry(0,%u,%u): %u\n", (unsigned)side, (unsigned)slot, (unsigned)answer);
    if (answer != PANDABRASS_ACCEPTED)
        return;
    if (out[0] == PANDABRASS_FREE)
        printf("  free\n");
    else
        printf("  booked, came in by side %u\n", out[0]);
}

int main(void)
{
    say("Load", pandabrass_load(PLAN, sizeof PLAN));
    say("bytes of a state", pandabrass_size(PLAN, sizeof PLAN));
    say("routers on the walk", pandabrass_walk(PLAN, sizeof PLAN, 0, 0));
    say("Start", pandabrass_start(PLAN, sizeof PLAN, state, sizeof state));
    say("Launch(0,0,0)", pandabrass_launch(PLAN, sizeof PLAN, state, sizeof state, 0, 0, 0));
    for (int round = 0; round < 8; round++) {
        to_write(round);
        if (round == 3 || round == 4)
            say("  Reply(0,1)", pandabrass_reply(PLAN, sizeof PLAN, state, sizeof state, 0, PANDABRASS_ACCEPT));
        if (round == 6 || round == 7)
            show_and_drop();
        end_round();
    }
    for (uint32_t side = 0; side < 4; side++)
        for (uint32_t slot = 0; slot < 2; slot++)
            entry(side, slot);
    return 0;
}
