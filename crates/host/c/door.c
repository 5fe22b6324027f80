/* What the door itself adds, on the trolley: a record handed back as it was, a state number without a meaning, where an
   example stands. Says which expectation failed, else nothing. */
#include <stdio.h>
#include <string.h>
#include "nethazel.h"

static uint8_t board[NETHAZEL_BOARD];
static const uint8_t sizes[3] = {3, 3, 2};
static const uint16_t rules[24] = {2, 4, 0, 1, 0, 1, 1, 0, 1, 2, 2, 1, 2, 4, 1, 2, 0, 0, 1, 1, 2, 0, 2, 1};
#define LENT board, sizeof board, sizes, 3, rules, 24

static int failed;
#define EXPECT(holds) ((holds) ? (void)0 : (void)(failed = 1, printf("line %d: %s\n", __LINE__, #holds)))

static int same_seat(const nethazel_seat *s, const nethazel_seat *t)
{
    return s->state == t->state && s->feature == t->feature && s->option == t->option && s->depth == t->depth &&
           s->next == t->next && s->broken == t->broken && !memcmp(s->choices, t->choices, sizeof s->choices) &&
           !memcmp(s->masks, t->masks, sizeof s->masks) && !memcmp(s->trial, t->trial, sizeof s->trial) &&
           !memcmp(s->alternatives, t->alternatives, sizeof s->alternatives);
}

/* Field by field, since a desk has a byte of padding at its end. */
static int same(nethazel_desk d, nethazel_desk e)
{
    int all = d.next == e.next;
    for (int c = 0; c < 8; c++) all = all && same_seat(&d.seats[c], &e.seats[c]);
    return all;
}

/* All eight seats different in every field, and so many bytes that no part of a record can stand for another. */
static nethazel_desk any_desk(uint8_t state)
{
    nethazel_desk d;
    memset(&d, 0, sizeof d);
    uint8_t n = 0;
    for (int c = 0; c < 8; c++) {
        nethazel_seat *s = &d.seats[c];
        s->state = c == 5 ? state : 2;
        s->feature = ++n, s->option = ++n, s->depth = ++n, s->next = ++n, s->broken = ++n;
        for (int f = 0; f < 16; f++) {
            s->choices[f] = ++n, s->trial[f] = ++n;
            s->masks[f] = (uint16_t)(257 * ++n), s->alternatives[f] = (uint16_t)(257 * ++n);
        }
    }
    return d;
}

static void refused_with_20(nethazel_desk d)
{
    nethazel_turned turned = nethazel_turns(d, LENT, 7);
    EXPECT(turned.number == 20 && turned.made == 0 && !turned.working && same(turned.desk, d));
    nethazel_changed changed = nethazel_enter(d, LENT, 0);
    EXPECT(changed.number == 20 && same(changed.desk, d));
    changed = nethazel_leave(d, LENT, 9);
    EXPECT(changed.number == 20 && same(changed.desk, d));
    changed = nethazel_choose(d, LENT, 9, 9, 9);
    EXPECT(changed.number == 20 && same(changed.desk, d));
    changed = nethazel_relax(d, LENT, 9, 9);
    EXPECT(changed.number == 20 && same(changed.desk, d));
    nethazel_left left = nethazel_options(d, LENT, 9, 9);
    EXPECT(left.number == 20 && left.mask == 0 && left.count == 0);
    left = nethazel_alternatives(d, LENT, 9, 9);
    EXPECT(left.number == 20 && left.mask == 0 && left.count == 0);
    nethazel_example_at at = nethazel_example(d, LENT, 9, 9, 9);
    EXPECT(at.number == 20 && at.from == 0 && at.length == 0);
    nethazel_ran ran = nethazel_ran_into(d, LENT, 9);
    EXPECT(ran.number == 20 && ran.rule == 0);
    EXPECT(nethazel_turns(d, board, 32767, sizes, 3, rules, 24, 7).number == 1);
    EXPECT(nethazel_turns(d, board, sizeof board, sizes, 0, rules, 24, 7).number == 10);
    ran = nethazel_ran_into(d, board, 32767, sizes, 0, rules, 24, 9);
    EXPECT(ran.number == 1 && ran.rule == 0);
    ran = nethazel_ran_into(d, board, sizeof board, sizes, 0, rules, 24, 9);
    EXPECT(ran.number == 10 && ran.rule == 0);
}

/* The rule that a seat last ran into, from any open seat, and number 20 of the byte that keeps it: seat 3 is at work after
   five turns in `work`, and ready in `ready`; the trolley has two rules. */
static void rules_run_into(nethazel_desk work, nethazel_desk ready)
{
    nethazel_ran ran = nethazel_ran_into(work, LENT, 3);
    EXPECT(ran.number == 0 && ran.rule == 1 && work.seats[3].broken == 1);
    ran = nethazel_ran_into(ready, LENT, 3);
    EXPECT(ran.number == 0 && ran.rule == NETHAZEL_NONE && ready.seats[3].broken == NETHAZEL_NONE);
    ran = nethazel_ran_into(work, LENT, 8);
    EXPECT(ran.number == 30 && ran.rule == 0);
    ran = nethazel_ran_into(work, LENT, 2);
    EXPECT(ran.number == 31 && ran.rule == 0 && work.seats[2].broken == NETHAZEL_NONE);
    work.seats[3].broken = 0;
    EXPECT(nethazel_ran_into(work, LENT, 3).rule == 0);
    work.seats[3].broken = NETHAZEL_NONE;
    EXPECT(nethazel_ran_into(work, LENT, 3).rule == NETHAZEL_NONE);
    work.seats[3].broken = 2;
    refused_with_20(work);
    work.seats[3].broken = 254;
    refused_with_20(work);
    work.seats[3].broken = 1;
    work.seats[2].broken = 1;
    refused_with_20(work);
    ready.seats[3].broken = 0;
    refused_with_20(ready);
}

int main(void)
{
    refused_with_20(any_desk(2));
    nethazel_changed opened = nethazel_open(LENT);
    EXPECT(opened.number == 0 && opened.desk.seats[7].choices[15] == NETHAZEL_NONE && board[32767] == NETHAZEL_NONE);
    nethazel_desk unknown = opened.desk;
    unknown.seats[5].state = 3;
    refused_with_20(unknown);
    unknown.seats[5].state = 255;
    refused_with_20(unknown);

    nethazel_desk untidy = opened.desk;
    untidy.seats[6].depth = 200; /* a closed seat's place is not read, and comes back as 0 */
    nethazel_changed entered = nethazel_enter(untidy, LENT, 3);
    EXPECT(entered.number == 0 && entered.desk.seats[3].state == NETHAZEL_AT_WORK && entered.desk.seats[6].depth == 0);
    EXPECT(nethazel_enter(entered.desk, LENT, 3).number == 32);
    nethazel_turned part = nethazel_turns(entered.desk, LENT, 5);
    EXPECT(part.made == 5 && part.working && part.desk.next == 4 && part.desk.seats[3].option == 1);
    nethazel_turned ready = nethazel_turns(part.desk, LENT, 65535);
    EXPECT(ready.number == 0 && ready.made == 34 && !ready.working && ready.desk.seats[3].state == NETHAZEL_READY);
    rules_run_into(part.desk, ready.desk);
    nethazel_example_at at = nethazel_example(ready.desk, LENT, 3, 1, 2);
    EXPECT(at.number == 0 && at.from == 3 * 4096 + 256 + 32 && at.length == 16);
    EXPECT(board[at.from] == 1 && board[at.from + 1] == 2 && board[at.from + 2] == 0 && board[at.from + 3] == NETHAZEL_NONE);
    nethazel_changed chosen = nethazel_choose(ready.desk, LENT, 3, 2, 0);
    EXPECT(chosen.number == 0 && chosen.desk.seats[3].choices[2] == 0);
    nethazel_turned again = nethazel_turns(chosen.desk, LENT, 65535);
    EXPECT(again.made == 43 && nethazel_options(again.desk, LENT, 3, 0).count == 1);
    nethazel_left could = nethazel_alternatives(again.desk, LENT, 3, 2);
    EXPECT(could.number == 0 && could.mask == 3 && could.count == 2 && again.desk.seats[3].alternatives[2] == 3);
    EXPECT(nethazel_alternatives(again.desk, LENT, 3, 1).number == 38);
    EXPECT(nethazel_alternatives(again.desk, LENT, 3, 3).number == 34);
    EXPECT(nethazel_alternatives(chosen.desk, LENT, 3, 2).number == 33 && chosen.desk.seats[3].alternatives[2] == 1);
    nethazel_desk none_chosen = again.desk;
    none_chosen.seats[3].alternatives[1] = 1;
    refused_with_20(none_chosen);
    nethazel_desk no_option = again.desk;
    no_option.seats[3].alternatives[2] = 4;
    refused_with_20(no_option);
    nethazel_changed relaxed = nethazel_relax(again.desk, LENT, 3, 2);
    EXPECT(relaxed.number == 0 && relaxed.desk.seats[3].choices[2] == NETHAZEL_NONE);
    EXPECT(relaxed.desk.seats[3].alternatives[2] == 0);
    nethazel_changed left = nethazel_leave(relaxed.desk, LENT, 3);
    EXPECT(left.number == 0 && left.desk.seats[3].state == NETHAZEL_CLOSED && board[3 * 4096] == NETHAZEL_NONE);
    return failed;
}
