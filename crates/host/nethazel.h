/* Nethazel: a configurator desk for eight clinics, for hosts in C (or in Rust, over the same records).

   The trolley: three features with 3, 3 and 2 options, and two rules. Seat 3 enters and looks on.

     static uint8_t board[NETHAZEL_BOARD];
     const uint8_t sizes[3] = {3, 3, 2};
     const uint16_t rules[24] = {
         2, 4,  0, 1,  0, 1,  1, 0,  1, 2,  2, 1,   // arity 2, 4 rows, on features 0 and 1: the rows
         2, 4,  1, 2,  0, 0,  1, 1,  2, 0,  2, 1};  // the same on features 1 and 2
     #define LENT board, sizeof board, sizes, 3, rules, 24

     nethazel_desk desk = nethazel_open(LENT).desk;
     desk = nethazel_enter(desk, LENT, 3).desk;               // seat 3 gets a job: it's at work
     desk = nethazel_turns(desk, LENT, 4).desk;               // four turns are made
     nethazel_ran ran = nethazel_ran_into(desk, LENT, 3);     // the search has just run into rule 1
     desk = nethazel_turns(desk, LENT, 65535).desk;           // 35 more turns are made; it's ready
     nethazel_left left = nethazel_options(desk, LENT, 3, 0); // of feature 0: mask 7, count 3, options 0, 1, 2
     desk = nethazel_choose(desk, LENT, 3, 2, 0).desk;        // feature 2 shall have option 0: at work again
     desk = nethazel_turns(desk, LENT, 65535).desk;           // 43 turns
     left = nethazel_options(desk, LENT, 3, 1);               // of feature 1: mask 5, count 2, options 0 and 2
     nethazel_example_at e = nethazel_example(desk, LENT, 3, 1, 2);
                                                              // board[e.from] on: 1, 2, 0, then thirteen times 255
     left = nethazel_alternatives(desk, LENT, 3, 2);          // of feature 2: mask 3, count 2, options 0, chosen, and 1

   Every call takes any numbers and any desk, and says by a number what can't be done (the list below); number 0 means
   that it was done. A real host looks at the number of each answer; nethazel_words says what it means.

   A seat's states, with the calls on the arrows:

               enter               turns: the last step
     closed ----------> at work -----------------------> ready
       ^                 |   ^                             | |
       |      leave      |   +-------- choose, relax ------+ |
       +-----------------+-----------------------------------+
                                  leave

   Memory. The library keeps nothing and allocates nothing: the caller owns all of it. A desk is a value, handed over and
   handed back; who has two values has two desks. Sizes and rules are lent for reading. The board is lent for writing to
   open, enter, leave, choose, relax and turns, and must then overlap no other memory that is lent to the call; options,
   alternatives, example and ran_into read it. Pointers are never NULL, also with length 0, and rules are aligned as
   uint16_t is. Hand desk and board on together, from call to call, with one catalogue: a board that others wrote to shows
   what they wrote. A desk has a byte of padding at its end, which may hold anything: compare and store desks field by field.

   Threads. Nothing is shared between calls but what the caller lends. Two threads may call at the same time with two
   boards; with one board only where neither call writes it. A call needs up to some 12 KB of stack: give a thread 64 KB
   or more.

   The archive holds x86-64 code and needs memcpy and memset of the C library. */
#ifndef NETHAZEL_H
#define NETHAZEL_H

#include <stdbool.h>
#include <stddef.h>
#include <stdint.h>

#ifdef __cplusplus
extern "C" {
#endif

#define NETHAZEL_VERSION "0.3.1"

/* The layout: the number of this header's records and calls. Each call's symbol has it in its name, so that a host which was
   compiled for other records or calls is not linked. If the linker says

     undefined reference to `nethazel_open_layout_2'

   and so of every call, then no archive was linked, or it is of another layout than this header: `nm libnethazel.a | grep
   nethazel_open` shows which; a name without a number is older than 0.2.0. Take header and archive from one release, and
   compile every source file that includes the header again. */
#define NETHAZEL_LAYOUT 2
#define nethazel_open nethazel_open_layout_2
#define nethazel_enter nethazel_enter_layout_2
#define nethazel_leave nethazel_leave_layout_2
#define nethazel_choose nethazel_choose_layout_2
#define nethazel_relax nethazel_relax_layout_2
#define nethazel_options nethazel_options_layout_2
#define nethazel_alternatives nethazel_alternatives_layout_2
#define nethazel_example nethazel_example_layout_2
#define nethazel_ran_into nethazel_ran_into_layout_2
#define nethazel_turns nethazel_turns_layout_2

#ifdef __GNUC__
#define NETHAZEL_EXTENSION __extension__ /* C89 has no bool */
#else
#define NETHAZEL_EXTENSION
#endif

#define NETHAZEL_BOARD 32768 /* the board's length: 4,096 bytes for each of the eight seats */
#define NETHAZEL_NONE 255    /* no choice, nothing placed, no example, no rule */

enum { NETHAZEL_CLOSED = 0, NETHAZEL_READY = 1, NETHAZEL_AT_WORK = 2 };

/* One clinic's record. The four numbers of the place have a meaning at work alone: the search looks for a build with
   `option` at `feature`, has placed options before `depth` and tries `next` there. In the other states they come as 0,
   and are not read. */
typedef struct {
    uint8_t state; /* closed, ready or at work; any other number is refused with 20 */
    uint8_t feature;
    uint8_t option;
    uint8_t depth;
    uint8_t next;
    uint8_t broken;      /* the last rule that an option tried in this job broke, counted from 0; 255 for none, and in the
                            other states */
    uint8_t choices[16]; /* the option chosen for each feature; 255 for none */
    uint16_t masks[16];  /* the options left of each feature: bit a for option a; of meaning once the seat is ready */
    uint8_t trial[16];   /* the options placed before `depth`; 255 from there on, and in the other states */
    uint16_t alternatives[16]; /* what could replace each feature's choice: bit a for option a; 0 where it has none; of
                                  meaning once the seat is ready */
} nethazel_seat;

typedef struct {
    nethazel_seat seats[8];
    uint8_t next; /* the seat where the next turn begins to look for one at work */
} nethazel_desk;

/* In every answer `number` is 0, or the refusal's. Then the desk is the one that was handed over, exactly as it was, the
   board is unchanged, and all else is 0 or false. */
typedef struct {
    uint8_t number;
    nethazel_desk desk;
} nethazel_changed;

typedef struct {
    uint8_t number;
    uint16_t mask;  /* the options left of the feature, or its alternatives: bit a for option a */
    uint32_t count; /* how many bits are set */
} nethazel_left;

typedef struct {
    uint8_t number;
    size_t from;   /* where in the board the example's bytes stand: the build's options, then 255 for missing features */
    size_t length; /* 16; 0 where the call is refused */
} nethazel_example_at;

typedef struct {
    uint8_t number;
    uint8_t rule; /* counted from 0 through the rule list; NETHAZEL_NONE, 255, for none */
} nethazel_ran;

typedef struct {
    uint8_t number;
    uint16_t made;                   /* turns made */
    NETHAZEL_EXTENSION bool working; /* whether a seat is still at work */
    nethazel_desk desk;
} nethazel_turned;

/* The records are as long as the archive has them; else the compiler says which is not. */
#if defined(__cplusplus) && __cplusplus >= 201103L
#define NETHAZEL_BYTES(record, size) static_assert(sizeof(record) == (size), #record " has " #size " bytes in the archive")
#elif !defined(__cplusplus) && defined(__STDC_VERSION__) && __STDC_VERSION__ >= 201112L
#define NETHAZEL_BYTES(record, size) _Static_assert(sizeof(record) == (size), #record " has " #size " bytes in the archive")
#else
#define NETHAZEL_BYTES(record, size) \
    typedef char record##_has_##size##_bytes_in_the_archive[sizeof(record) == (size) ? 1 : -1]
#endif
NETHAZEL_BYTES(nethazel_seat, 102);
NETHAZEL_BYTES(nethazel_desk, 818);
NETHAZEL_BYTES(nethazel_changed, 820);
NETHAZEL_BYTES(nethazel_left, 8);
NETHAZEL_BYTES(nethazel_example_at, 24);
NETHAZEL_BYTES(nethazel_ran, 2);
NETHAZEL_BYTES(nethazel_turned, 824);
#undef NETHAZEL_BYTES
#undef NETHAZEL_EXTENSION

/* What every call is lent: the board; the sizes, one for each of 1 to 16 features, from 1 to 16 options each; and the rule
   list, at most 8,192 numbers for at most 64 rules. A rule is its arity k (1 to 6), its row count m, k different features,
   then m rows of k options; a build satisfies it when its options at those features are one of the rows. */
#define NETHAZEL_CATALOGUE const uint8_t *sizes, size_t sizes_length, const uint16_t *rules, size_t rules_length
#define NETHAZEL_WRITTEN uint8_t *board, size_t board_length, NETHAZEL_CATALOGUE
#define NETHAZEL_READ const uint8_t *board, size_t board_length, NETHAZEL_CATALOGUE

/* In all calls c is a seat (0 to 7), i a feature and a an option.

   open          the board filled with 255, all seats closed; a refused open answers such a desk too
   enter         the closed seat gets a job
   leave         an open seat, ready or at work, becomes closed
   choose        sets one choice, and the seat gets a job
   relax         drops one choice, and the seat gets a job
   options       the options left of one feature of a ready seat
   alternatives  what could replace the choice of one feature of a ready seat: the options of which some build satisfies
                 all rules and all other choices, the option in force always among them
   example       the first build in dictionary order with option a at feature i, for an option that is left
   ran_into      the rule that the search of a seat, at work or ready, last ran into: the last one that an option tried in
                 this job broke; none once the seat is ready
   turns         w turns, or fewer when no seat is at work; each gives one waiting seat one step, around the ring */
nethazel_changed nethazel_open(NETHAZEL_WRITTEN);
nethazel_changed nethazel_enter(nethazel_desk desk, NETHAZEL_WRITTEN, size_t c);
nethazel_changed nethazel_leave(nethazel_desk desk, NETHAZEL_WRITTEN, size_t c);
nethazel_changed nethazel_choose(nethazel_desk desk, NETHAZEL_WRITTEN, size_t c, size_t i, size_t a);
nethazel_changed nethazel_relax(nethazel_desk desk, NETHAZEL_WRITTEN, size_t c, size_t i);
nethazel_left nethazel_options(nethazel_desk desk, NETHAZEL_READ, size_t c, size_t i);
nethazel_left nethazel_alternatives(nethazel_desk desk, NETHAZEL_READ, size_t c, size_t i);
nethazel_example_at nethazel_example(nethazel_desk desk, NETHAZEL_READ, size_t c, size_t i, size_t a);
nethazel_ran nethazel_ran_into(nethazel_desk desk, NETHAZEL_READ, size_t c);
nethazel_turned nethazel_turns(nethazel_desk desk, NETHAZEL_WRITTEN, uint16_t w);
#undef NETHAZEL_CATALOGUE
#undef NETHAZEL_WRITTEN
#undef NETHAZEL_READ

/* The numbers of the answers. Checks run from the top, and the first that fails gives its number. Of the catalogue's
   faults (10 to 18) it is the one met first, reading the sizes and then the rule list from the front. Open makes checks
   1 and 10 to 18 and nothing more, turns makes 1 to 20. */
enum nethazel_refusal {
    NETHAZEL_DONE = 0,
    NETHAZEL_REFUSED_BOARD_LENGTH = 1,           /* the board's length is not NETHAZEL_BOARD, 32,768 */
    NETHAZEL_REFUSED_FEATURE_COUNT = 10,         /* no feature, or above 16 */
    NETHAZEL_REFUSED_SIZE = 11,                  /* a size 0, or above 16 */
    NETHAZEL_REFUSED_RULE_LIST_LENGTH = 12,      /* the rule list above 8,192 numbers */
    NETHAZEL_REFUSED_RULE_COUNT = 13,            /* numbers remain after 64 rules */
    NETHAZEL_REFUSED_RULE_CUT_SHORT = 14,        /* fewer remain than a rule's next part (header, features, rows) needs */
    NETHAZEL_REFUSED_ARITY = 15,                 /* an arity 0, or above 6 */
    NETHAZEL_REFUSED_RULE_FEATURE = 16,          /* a rule names a feature that is not in the catalogue */
    NETHAZEL_REFUSED_FEATURE_TWICE = 17,         /* a rule names a feature twice */
    NETHAZEL_REFUSED_ROW_OPTION = 18,            /* a row's option is not below its feature's size */
    NETHAZEL_REFUSED_DESK_UNFIT = 20,            /* the desk doesn't fit the catalogue, or a seat's state is unknown */
    NETHAZEL_REFUSED_SEAT_ABOVE_7 = 30,          /* seat above 7 */
    NETHAZEL_REFUSED_SEAT_CLOSED = 31,           /* seat closed (not for enter) */
    NETHAZEL_REFUSED_SEAT_OPEN = 32,             /* seat open (enter only) */
    NETHAZEL_REFUSED_SEAT_AT_WORK = 33,          /* seat at work (not for enter, leave, ran_into) */
    NETHAZEL_REFUSED_FEATURE_MISSING = 34,       /* feature not in the catalogue */
    NETHAZEL_REFUSED_OPTION_MISSING = 35,        /* option not below the size (choose, example) */
    NETHAZEL_REFUSED_FEATURE_HAS_CHOICE = 36,    /* the feature has a choice (choose) */
    NETHAZEL_REFUSED_OPTION_NOT_LEFT = 37,       /* option not left (choose, example) */
    NETHAZEL_REFUSED_FEATURE_HAS_NO_CHOICE = 38  /* the feature has no choice (relax, alternatives) */
};

/* What a number means, in words for a person, never NULL. It stands here since the archive holds no text. */
#if defined(__cplusplus) || (defined(__STDC_VERSION__) && __STDC_VERSION__ >= 199901L)
#define NETHAZEL_INLINE inline
#elif defined(__GNUC__)
#define NETHAZEL_INLINE __inline__
#else
#define NETHAZEL_INLINE
#endif
static NETHAZEL_INLINE const char *nethazel_words(unsigned number)
{
    switch (number) {
    case NETHAZEL_DONE: return "done";
    case NETHAZEL_REFUSED_BOARD_LENGTH: return "the board's length is not 32,768 bytes";
    case NETHAZEL_REFUSED_FEATURE_COUNT: return "the catalogue has no feature, or more than 16";
    case NETHAZEL_REFUSED_SIZE: return "a feature's size is not from 1 to 16";
    case NETHAZEL_REFUSED_RULE_LIST_LENGTH: return "the rule list has more than 8,192 numbers";
    case NETHAZEL_REFUSED_RULE_COUNT: return "the rule list goes on after 64 rules";
    case NETHAZEL_REFUSED_RULE_CUT_SHORT: return "the rule list ends before its last rule is complete";
    case NETHAZEL_REFUSED_ARITY: return "a rule's arity is not from 1 to 6";
    case NETHAZEL_REFUSED_RULE_FEATURE: return "a rule names a feature that is not in the catalogue";
    case NETHAZEL_REFUSED_FEATURE_TWICE: return "a rule names a feature twice";
    case NETHAZEL_REFUSED_ROW_OPTION: return "a row of a rule has an option that its feature doesn't have";
    case NETHAZEL_REFUSED_DESK_UNFIT: return "the desk doesn't fit the catalogue";
    case NETHAZEL_REFUSED_SEAT_ABOVE_7: return "the seats are numbered 0 to 7, and the seat is above 7";
    case NETHAZEL_REFUSED_SEAT_CLOSED: return "the seat is closed";
    case NETHAZEL_REFUSED_SEAT_OPEN: return "the seat is open already";
    case NETHAZEL_REFUSED_SEAT_AT_WORK: return "the seat is still at work";
    case NETHAZEL_REFUSED_FEATURE_MISSING: return "the feature is not in the catalogue";
    case NETHAZEL_REFUSED_OPTION_MISSING: return "the feature doesn't have the option";
    case NETHAZEL_REFUSED_FEATURE_HAS_CHOICE: return "the feature has a choice already";
    case NETHAZEL_REFUSED_OPTION_NOT_LEFT: return "the option is not left: no build that the choices allow has it";
    case NETHAZEL_REFUSED_FEATURE_HAS_NO_CHOICE: return "the feature has no choice";
    default: return "no refusal has this number";
    }
}
#undef NETHAZEL_INLINE

#ifdef __cplusplus
}
#endif

#endif
