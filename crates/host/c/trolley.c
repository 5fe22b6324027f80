/* The listing program, over the door: on the trolley seat 3 enters, is turned until ready, chooses option 0 of feature 2
   and is turned again. It prints a line for each feature: its number, the options left ("-" if none), their count. Before
   them it prints, after each of its first five turns, the rule that the search last ran into; after them, as of a feature,
   what could replace the choice. */
#include <stdio.h>
#include <stdlib.h>
#include "nethazel.h"

static uint8_t board[NETHAZEL_BOARD];
static const uint8_t sizes[3] = {3, 3, 2};
static const uint16_t rules[24] = {2, 4, 0, 1, 0, 1, 1, 0, 1, 2, 2, 1, 2, 4, 1, 2, 0, 0, 1, 1, 2, 0, 2, 1};
#define LENT board, sizeof board, sizes, 3, rules, 24

static void done(const char *call, unsigned number)
{
    if (number == NETHAZEL_DONE) return;
    fprintf(stderr, "%s was refused with %u: %s\n", call, number, nethazel_words(number));
    exit(1);
}

static void print(size_t i, nethazel_left left)
{
    printf("%zu ", i);
    const char *before = "";
    for (unsigned a = 0; a < 16; a++) {
        if (!(left.mask >> a & 1)) continue;
        printf("%s%u", before, a);
        before = ",";
    }
    printf("%s %u\n", left.mask ? "" : "-", (unsigned)left.count);
}

static void list(nethazel_desk desk, size_t i)
{
    nethazel_left left = nethazel_options(desk, LENT, 3, i);
    done("options", left.number);
    print(i, left);
}

/* Five turns, one by one, each with the rule that the search last ran into ("-" if none). */
static nethazel_desk watched(nethazel_desk desk)
{
    printf("ran into:");
    for (int turn = 0; turn < 5; turn++) {
        nethazel_turned turned = nethazel_turns(desk, LENT, 1);
        done("turns", turned.number);
        desk = turned.desk;
        nethazel_ran ran = nethazel_ran_into(desk, LENT, 3);
        done("ran_into", ran.number);
        if (ran.rule == NETHAZEL_NONE) printf(" -");
        else printf(" %u", (unsigned)ran.rule);
    }
    printf("\n");
    return desk;
}

int main(void)
{
    nethazel_changed opened = nethazel_open(LENT);
    done("open", opened.number);
    nethazel_changed entered = nethazel_enter(opened.desk, LENT, 3);
    done("enter", entered.number);
    nethazel_turned ready = nethazel_turns(watched(entered.desk), LENT, 65535);
    done("turns", ready.number);
    nethazel_changed chosen = nethazel_choose(ready.desk, LENT, 3, 2, 0);
    done("choose", chosen.number);
    nethazel_turned again = nethazel_turns(chosen.desk, LENT, 65535);
    done("turns", again.number);
    for (size_t i = 0; i < 3; i++) list(again.desk, i);
    nethazel_left could = nethazel_alternatives(again.desk, LENT, 3, 2);
    done("alternatives", could.number);
    printf("instead: ");
    print(2, could);
    return 0;
}
