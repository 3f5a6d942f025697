/*
 * A C host: it starts a plan image from a file and runs it to quiet; a command
 * that it is told to carry out or to abort is over at once, so it reports each
 * of them as returned, a turn a report, until none is left. A plan that never
 * comes to rest keeps it busy for ever.
 *
 *   cc -std=c11 -Wall -Wextra -pedantic -I../include example.c \
 *      ../../target/staticlib/libsamblokur.a -o example
 *   ./example ../examples/plans/drawer.plan
 */
#include "samblokur.h"

#include <stdio.h>
#include <string.h>

enum { IMAGE_ROOM = 65536, BUDGET = 1000 };

static uint8_t image[IMAGE_ROOM];
static size_t image_len;
static samblokur_state state;
static samblokur_card card;
static samblokur_report report;
static uint32_t list[SAMBLOKUR_ROOM];
static uint8_t event[SAMBLOKUR_EVENT_HEADER + SAMBLOKUR_EVENT_ENTRY * SAMBLOKUR_EVENT_MOST];

/* The nodes whose commands are issued and not returned yet. */
static int awaited[SAMBLOKUR_ROOM];

static uint32_t get16(const uint8_t *at) { return at[0] | (uint32_t)at[1] << 8; }

static void put16(uint8_t *at, uint32_t number) {
  at[0] = (uint8_t)(number & 255u);
  at[1] = (uint8_t)(number >> 8 & 255u);
}

static int read_image(const char *path) {
  FILE *file = fopen(path, "rb");
  if (file == NULL) return 0;
  image_len = fread(image, 1, sizeof image, file);
  fclose(file);
  return 1;
}

/* The words of the list, carried out. */
static void carry_out(void) {
  for (size_t i = 0; i < report.next; i++) {
    uint32_t node = SAMBLOKUR_WORD_NODE(list[i]);
    const uint8_t *record = image + SAMBLOKUR_NODES_AT + SAMBLOKUR_NODE_SIZE * node;
    const char *what = SAMBLOKUR_WORD_IS_ABORT(list[i]) ? "abort" : "issue";
    printf("  %s command %u of node %u\n", what, (unsigned)get16(record + SAMBLOKUR_NODE_WHAT), (unsigned)node);
    awaited[node] = 1;
  }
}

/* After a run or a turn: carries out its words and runs on until quiet, however
 * many budgets and lists it takes; the refusal number. */
static uint32_t to_quiet(uint32_t number) {
  while (number == SAMBLOKUR_ACCEPTED || number == SAMBLOKUR_NO_ROOM) {
    printf("%u steps\n", (unsigned)report.steps);
    carry_out();
    if (report.ending == SAMBLOKUR_DONE) break;
    number = samblokur_run(image, image_len, &state, &card, BUDGET, list, SAMBLOKUR_ROOM, 0, &report);
  }
  return number;
}

/* An event that returns as many awaited commands as it can hold; its length, 0 if none is awaited. */
static size_t gather(void) {
  uint8_t *at = event + SAMBLOKUR_EVENT_HEADER;
  uint32_t count = 0;
  memset(event, 0, sizeof event);
  for (uint32_t node = 0; node < SAMBLOKUR_ROOM && count < SAMBLOKUR_EVENT_MOST; node++) {
    if (!awaited[node]) continue;
    awaited[node] = 0;
    at[0] = SAMBLOKUR_RETURNED;
    put16(at + 2, node);
    at += SAMBLOKUR_EVENT_ENTRY;
    count++;
  }
  put16(event, card.serial & 65535u);
  put16(event + 2, card.serial >> 16);
  put16(event + 4, count);
  return count > 0 ? (size_t)(at - event) : 0;
}

int main(int argc, char **argv) {
  if (argc != 2 || !read_image(argv[1])) {
    fprintf(stderr, "usage: %s PLAN\n", argv[0]);
    return 64;
  }
  uint32_t number = samblokur_fresh(image, image_len, &state, &card, &report);
  if (number == SAMBLOKUR_ACCEPTED) {
    number = samblokur_run(image, image_len, &state, &card, BUDGET, list, SAMBLOKUR_ROOM, 0, &report);
    number = to_quiet(number);
  }
  size_t length;
  while (number == SAMBLOKUR_ACCEPTED && (length = gather()) > 0) {
    number = samblokur_turn(image, image_len, &state, &card, event, length, BUDGET, list, SAMBLOKUR_ROOM, 0, &report);
    number = to_quiet(number);
  }
  if (number != SAMBLOKUR_ACCEPTED) {
    fprintf(stderr, "refused: number %u, record %u\n", (unsigned)number, (unsigned)report.record);
    return (int)number;
  }
  printf("node 0: status %u, outcome %u\n", (unsigned)state.status[0], (unsigned)state.outcome[0]);
  return 0;
}
