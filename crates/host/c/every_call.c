/* Every call of the header once, and some of its names, the header included twice, in the words that C89 and C++98 share. It is
   compiled alone, as every standard of C and C++; the calls' meaning is door.c's matter. */
#include "nethazel.h"
#include "nethazel.h"

#define LENT board, sizeof board, sizes, 1, rules, 1

static uint8_t board[NETHAZEL_BOARD];
static const uint8_t sizes[1] = {1};
static const uint16_t rules[1] = {0};

static unsigned changes(nethazel_desk desk)
{
    unsigned numbers = nethazel_enter(desk, LENT, 0).number;
    numbers += nethazel_leave(desk, LENT, 0).number;
    numbers += nethazel_choose(desk, LENT, 0, 0, 0).number;
    numbers += nethazel_relax(desk, LENT, 0, 0).number;
    return numbers + nethazel_turns(desk, LENT, 1).working;
}

static unsigned readings(nethazel_desk desk)
{
    nethazel_example_at at = nethazel_example(desk, LENT, 0, 0, 0);
    nethazel_left left = nethazel_options(desk, LENT, 0, 0);
    nethazel_left could = nethazel_alternatives(desk, LENT, 0, 0);
    nethazel_ran ran = nethazel_ran_into(desk, LENT, 0);
    return at.number + left.mask + could.count + ran.rule + (board[at.from] == NETHAZEL_NONE);
}

int main(void)
{
    nethazel_changed opened = nethazel_open(LENT);
    const char *version = NETHAZEL_VERSION;
    switch (opened.number) {
    case NETHAZEL_DONE: return (int)(changes(opened.desk) + readings(opened.desk));
    case NETHAZEL_REFUSED_RULE_CUT_SHORT: return nethazel_words(opened.number)[0];
    default: return version[0] + NETHAZEL_LAYOUT;
    }
}
