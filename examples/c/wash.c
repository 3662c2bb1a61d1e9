/*
 * Before a wash, on plan T: a set-up is under way. The program launches and closes nothing more and waits. In every
 * WRITE each passive replies and each active drops that can; Remaining tells how many packets are under way, and after
 * how many rounds at most there is none. Prints both before each round, and the calls that were accepted in its WRITE.
 *
 *     cc -I include examples/c/wash.c target/staticlib/libexport.a -o wash
 */
#include <stdio.h>

#include "pandabrass.h"

static const uint8_t PLAN[] = {0x08, 0x42, 0x11, 0x24, 0x92, 0x4C, 0x06, 0x00, 0x00, 0x00, 0x20};

/* The network's state; room for any plan. */
static uint8_t state[PANDABRASS_LARGEST_STATE];

/* What is under way; how many packets it is. */
static uint32_t remaining(void)
{
    uint8_t out[8];
    uint32_t answer = pandabrass_remaining(PLAN, sizeof PLAN, state, sizeof state, out);
    struct pandabrass_left left;
    if (answer != PANDABRASS_ACCEPTED) {
        printf("Remaining: %u\n", (unsigned)answer);
        return 0;
    }
    left = pandabrass_left_of(out);
    printf("Remaining: packets %u, rounds at most %u\n", (unsigned)left.packets, (unsigned)left.rounds);
    return left.packets;
}

/* A whole round in which everybody acts. */
static void wait_a_round(void)
{
    pandabrass_read(PLAN, sizeof PLAN, state, sizeof state);
    pandabrass_execute(PLAN, sizeof PLAN, state, sizeof state);
    if (pandabrass_reply(PLAN, sizeof PLAN, state, sizeof state, 0, PANDABRASS_DECLINE) == PANDABRASS_ACCEPTED)
        printf("  Reply(0,0)\n");
    if (pandabrass_drop(PLAN, sizeof PLAN, state, sizeof state, 0) == PANDABRASS_ACCEPTED)
        printf("  Drop(0)\n");
    pandabrass_write(PLAN, sizeof PLAN, state, sizeof state);
}

int main(void)
{
    int rounds = 0;
    pandabrass_start(PLAN, sizeof PLAN, state, sizeof state);
    remaining();
    printf("Launch(0,0,0): %u\n", (unsigned)pandabrass_launch(PLAN, sizeof PLAN, state, sizeof state, 0, 0, 0));
    for (; remaining() > 0; rounds++)
        wait_a_round();
    printf("empty after %d rounds: the wash may begin\n", rounds);
    return 0;
}
