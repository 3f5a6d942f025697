/*
 * Samblokur: a plan executive for PLEXIL whose running code is proved.
 *
 * Four calls over memory that the host lends. The library keeps no memory of
 * its own, allocates nothing, and keeps no pointer after a call returns. Link
 * with libsamblokur.a; it needs nothing but the C library. No function of it
 * calls itself, and no call takes more than 28760 bytes of stack, its return
 * address included; memcpy and memset of the C library count as 256 each.
 *
 * Lent memory: every pointer is non-null, aligned for its type, and the parts
 * that a call writes overlap nothing else that it is lent. An image, an event
 * or a list of length 0 still needs a non-null pointer. Nothing is required of
 * the contents: each call checks all that it is given and refuses by number.
 *
 * Each call returns the refusal number, 0 where nothing is refused, and fills
 * every field of its report. A refusal changes nothing else that was lent, and
 * a refused turn has not taken its event; but SAMBLOKUR_NO_ROOM keeps the event
 * and the steps already done.
 *
 * A host's course, with every run and turn from place 0 of the list:
 *
 *   samblokur_fresh and samblokur_run, once
 *   after every accepted run or turn, NO_ROOM included, first carry out the
 *   words below report.next; then
 *     DONE:             wait for what the cabinet reports, then samblokur_turn
 *     SPENT or NO_ROOM: samblokur_run
 *
 * A budget of 0 does no step, so it would stay SPENT for ever. In a list of
 * SAMBLOKUR_ROOM places or more NO_ROOM comes only after a step. An aborted
 * command is still awaited: return it too when it has stopped.
 */
#ifndef SAMBLOKUR_H
#define SAMBLOKUR_H

#include <stddef.h>
#include <stdint.h>

#ifdef __cplusplus
extern "C" {
#endif

/* Refusal numbers. The lowest broken of 1 to 12 is answered, with the lowest
 * record that breaks it. Every call checks its image first (1 to 12); then
 * samblokur_run and samblokur_turn check the state and card (30), and then 31;
 * then samblokur_turn checks the event, 20 to 25 in order. The limits are those
 * of samblokur_counts. */
enum samblokur_refusal {
  SAMBLOKUR_ACCEPTED = 0,
  SAMBLOKUR_SHORT = 1,       /* image under 20 bytes */
  SAMBLOKUR_EDITION = 2,     /* edition not 1 */
  SAMBLOKUR_COUNT = 3,       /* a count outside the limits */
  SAMBLOKUR_LAYOUT = 4,      /* an offset, the total or the image's length */
  SAMBLOKUR_TREE = 5,        /* record: node. Its parent is wrong */
  SAMBLOKUR_NODE = 6,        /* record: node. Type, spare or field */
  SAMBLOKUR_VARIABLE = 7,    /* record: variable */
  SAMBLOKUR_LOOKUP = 8,      /* record: lookup */
  SAMBLOKUR_EXPRESSION = 9,  /* record: expression. Operator, spare, operand,
                                kind or constant */
  SAMBLOKUR_DEEP = 10,       /* record: expression. Depth over 12 */
  SAMBLOKUR_KIND = 11,       /* record: node. Condition not Bool, or value
                                kind not the target's */
  SAMBLOKUR_REACH = 12,      /* record: node. It reads or assigns a variable
                                whose owner is neither it nor above it */
  SAMBLOKUR_BUSY = 20,       /* event while Running */
  SAMBLOKUR_SHAPE = 21,      /* event length, count or spare */
  SAMBLOKUR_TURN = 22,       /* serial not the next */
  SAMBLOKUR_ENTRY = 23,      /* record: entry. Form, spare, index, value or
                                non-command node */
  SAMBLOKUR_TWICE = 24,      /* record: the later entry that names one lookup
                                or node */
  SAMBLOKUR_NOT_AWAITED = 25,/* record: entry. Return for a node not Executing
                                or Failing, or marked already */
  SAMBLOKUR_STATE = 30,      /* state or card is none of this plan's */
  SAMBLOKUR_PLACE = 31,      /* list start beyond its end */
  SAMBLOKUR_NO_ROOM = 32     /* the next step's words do not fit: report.steps
                                are done, their words stand below report.next */
};

enum samblokur_status {
  SAMBLOKUR_INACTIVE = 0,
  SAMBLOKUR_WAITING = 1,
  SAMBLOKUR_EXECUTING = 2,
  SAMBLOKUR_FINISHING = 3,
  SAMBLOKUR_FAILING = 4,
  SAMBLOKUR_ITERATION_ENDED = 5,
  SAMBLOKUR_FINISHED = 6
};

enum samblokur_outcome {
  SAMBLOKUR_OUTCOME_NONE = 0,
  SAMBLOKUR_SUCCESS = 1,
  SAMBLOKUR_FAILURE = 2,
  SAMBLOKUR_SKIPPED = 3
};

enum samblokur_failure {
  SAMBLOKUR_FAILURE_NONE = 0,
  SAMBLOKUR_PRE = 1,
  SAMBLOKUR_POST = 2,
  SAMBLOKUR_INVARIANT = 3,
  SAMBLOKUR_PARENT = 4,
  SAMBLOKUR_WRITE_LOST = 5
};

/* A cell's tag, one more than the kind in images; the bits are a Bool's 0 or 1,
 * an Int's two's complement or a finite Real's binary64. Unknown has bits 0. */
enum samblokur_tag {
  SAMBLOKUR_UNKNOWN = 0,
  SAMBLOKUR_BOOL = 1,
  SAMBLOKUR_INT = 2,
  SAMBLOKUR_REAL = 3
};

enum samblokur_phase { SAMBLOKUR_RUNNING = 0, SAMBLOKUR_QUIET = 1 };

/* report.ending */
enum samblokur_ending {
  SAMBLOKUR_REFUSED = 0, /* the call was refused */
  SAMBLOKUR_DONE = 1,    /* a check or fresh start: accepted; a run or turn: the
                            plan is Quiet, no rule applies any more */
  SAMBLOKUR_SPENT = 2    /* a run or turn: the budget is used and a rule still
                            applies */
};

/* What a plan keeps between calls. Places past the plan's counts hold 0. */
typedef struct samblokur_state {
  uint8_t status[256];   /* samblokur_status, a place a node */
  uint8_t outcome[256];  /* samblokur_outcome */
  uint8_t failure[256];  /* samblokur_failure */
  uint8_t mark[256];     /* 1: the command has returned */
  uint8_t vartags[128];  /* samblokur_tag, a cell a variable */
  uint64_t varbits[128];
  uint8_t looktags[64];  /* samblokur_tag, a cell a lookup */
  uint64_t lookbits[64];
} samblokur_state;

/* The turn card. The host lends its own and each call advances it. */
typedef struct samblokur_card {
  uint32_t serial; /* the serial that the next event must carry: 0 at first,
                      and after 4294967295 again */
  uint32_t phase;  /* samblokur_phase */
} samblokur_card;

/* How many records an admitted image has of each sort; 0 if it is refused. */
typedef struct samblokur_counts {
  uint16_t nodes; /* 1..256 */
  uint16_t exprs; /* 0..2048 */
  uint16_t vars;  /* 0..128 */
  uint16_t looks; /* 0..64 */
} samblokur_counts;

typedef struct samblokur_report {
  uint32_t number; /* the number that the call returns */
  uint32_t record; /* the record or entry that a refusal names, else 0 */
  uint32_t ending; /* samblokur_ending */
  uint32_t steps;  /* a run's or turn's count of micro steps, else 0 */
  size_t next;     /* a run's or turn's next free place in the list; the given
                      start when it is refused (but for NO_ROOM); else 0 */
} samblokur_report;

/* A command word is twice the node number, plus 1 for an abort. Which command
 * it is stands in the node's record, at SAMBLOKUR_NODE_WHAT. */
#define SAMBLOKUR_WORD_NODE(word) ((uint32_t)(word) >> 1)
#define SAMBLOKUR_WORD_IS_ABORT(word) (((uint32_t)(word) & 1u) != 0u)

/* A step writes at most one word a node: a list of so many places is room for
 * any step. */
#define SAMBLOKUR_ROOM 256

/* An event, little-endian: serial 32, count 16, spare 16 (0), then so many
 * entries of 12 bytes: form 8, spare 8 (0), index 16 (of the lookup or node),
 * value 64 (bits as in a cell of the lookup's kind; 0 but for a lookup value).
 * An event without entries is one too. More than 128 returns need two events. */
enum samblokur_form {
  SAMBLOKUR_LOOKUP_VALUE = 0,
  SAMBLOKUR_LOOKUP_UNKNOWN = 1,
  SAMBLOKUR_RETURNED = 2
};
#define SAMBLOKUR_EVENT_HEADER 8
#define SAMBLOKUR_EVENT_ENTRY 12
#define SAMBLOKUR_EVENT_MOST 128

/* A plan image, little-endian. Header, ten 16-bit numbers: edition (1), counts
 * of nodes, expressions, variables and lookups, the offsets of these four
 * sections, total length. The sections follow in that order with no gap:
 *   node, 24 bytes: parent 16 (65535 for node 0); type 8 (0 list, 1 command,
 *     2 assignment); spare 8; priority 16; Skip, Start, Pre, Inv, End, Post,
 *     Repeat 16 each (expression, or 65535 for the default); what 16 (variable,
 *     command number, or 65535); value 16 (expression, or 65535)
 *   expression, 16 bytes: operator 8; kind 8; a 16; b 16; spare 16; constant 64
 *   variable, 16 bytes: kind 8; known 8; owner node 16; spare 32; initial 64
 *   lookup, 2 bytes: kind 8; spare 8
 * Kinds: 0 Bool, 1 Int, 2 Real. */
#define SAMBLOKUR_NODES_AT 20
#define SAMBLOKUR_NODE_SIZE 24
#define SAMBLOKUR_NODE_WHAT 20

/* Checks a plan image. */
uint32_t samblokur_check(const uint8_t *image, size_t image_len,
                         samblokur_counts *counts, samblokur_report *report);

/* Sets state and card to the plan's fresh start. */
uint32_t samblokur_fresh(const uint8_t *image, size_t image_len,
                         samblokur_state *state, samblokur_card *card,
                         samblokur_report *report);

/* Runs to quiet under a step budget, after a fresh start, SPENT or NO_ROOM, and
 * writes the command words into list from place start on, those of one micro
 * step in node order. A run of a plan that is Quiet does no step and is DONE. */
uint32_t samblokur_run(const uint8_t *image, size_t image_len,
                       samblokur_state *state, samblokur_card *card,
                       uint16_t budget, uint32_t *list, size_t list_len,
                       size_t start, samblokur_report *report);

/* One call per report. The event enters: it changes lookups and marks and moves
 * the serial on. Then the plan runs as by samblokur_run; SPENT and NO_ROOM keep
 * the event. */
uint32_t samblokur_turn(const uint8_t *image, size_t image_len,
                        samblokur_state *state, samblokur_card *card,
                        const uint8_t *event, size_t event_len,
                        uint16_t budget, uint32_t *list, size_t list_len,
                        size_t start, samblokur_report *report);

/* The layout that the library was built for. */
#ifdef __cplusplus
#define SAMBLOKUR_ASSERT(fact, text) static_assert(fact, text)
#else
#define SAMBLOKUR_ASSERT(fact, text) _Static_assert(fact, text)
#endif
#define SAMBLOKUR_AT(record, field, place)                                     \
  SAMBLOKUR_ASSERT(offsetof(record, field) == (place),                         \
                   #record "." #field " is not at " #place)
#define SAMBLOKUR_SIZE(record, size)                                           \
  SAMBLOKUR_ASSERT(sizeof(record) == (size), #record " is not " #size)

SAMBLOKUR_SIZE(samblokur_state, 2752);
SAMBLOKUR_AT(samblokur_state, status, 0);
SAMBLOKUR_AT(samblokur_state, outcome, 256);
SAMBLOKUR_AT(samblokur_state, failure, 512);
SAMBLOKUR_AT(samblokur_state, mark, 768);
SAMBLOKUR_AT(samblokur_state, vartags, 1024);
SAMBLOKUR_AT(samblokur_state, varbits, 1152);
SAMBLOKUR_AT(samblokur_state, looktags, 2176);
SAMBLOKUR_AT(samblokur_state, lookbits, 2240);
SAMBLOKUR_SIZE(samblokur_card, 8);
SAMBLOKUR_AT(samblokur_card, serial, 0);
SAMBLOKUR_AT(samblokur_card, phase, 4);
SAMBLOKUR_SIZE(samblokur_counts, 8);
SAMBLOKUR_AT(samblokur_counts, nodes, 0);
SAMBLOKUR_AT(samblokur_counts, exprs, 2);
SAMBLOKUR_AT(samblokur_counts, vars, 4);
SAMBLOKUR_AT(samblokur_counts, looks, 6);
SAMBLOKUR_SIZE(samblokur_report, 16 + sizeof(size_t));
SAMBLOKUR_AT(samblokur_report, number, 0);
SAMBLOKUR_AT(samblokur_report, record, 4);
SAMBLOKUR_AT(samblokur_report, ending, 8);
SAMBLOKUR_AT(samblokur_report, steps, 12);
SAMBLOKUR_AT(samblokur_report, next, 16);

#undef SAMBLOKUR_SIZE
#undef SAMBLOKUR_AT
#undef SAMBLOKUR_ASSERT

#ifdef __cplusplus
}
#endif

#endif
