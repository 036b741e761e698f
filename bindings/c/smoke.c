/* A first program over the archive: a core fetches one key from one peer, and an actor from its source.
   It prints what each step told, and ends with 1 at the first surprise.

       gcc -std=c11 -Wall -Wextra -Werror bindings/c/smoke.c bindings/c/heap.c \
           -L crates/resolver_c/out -l resolver_c -o /tmp/smoke && valgrind -q --leak-check=full /tmp/smoke */
#include "resolver.h"

#include <stdio.h>
#include <stdlib.h>
#include <string.h>

#define EXPECT(it) expect(it, #it, __LINE__)

static void expect(bool holds, const char *what, int line) {
  if (holds) return;
  fprintf(stderr, "smoke.c:%d: not so: %s\n", line, what);
  exit(1);
}

/* An input, or settings, as they are spelled. */
typedef struct {
  uint8_t bytes[512];
  size_t length;
} spelled;

static void put(spelled *it, uint64_t number, size_t length) {
  for (size_t i = 0; i < length; i++) it->bytes[it->length++] = i < 8 ? number >> (8 * i) : 0;
}

static void put_octet(spelled *it, uint8_t octet) { put(it, octet, 1); }
static void put_count(spelled *it, uint32_t count) { put(it, count, 4); }
static void put_number(spelled *it, uint64_t number) { put(it, number, 8); }
static void put_moment(spelled *it, uint64_t moment) { put(it, moment, 16); }

static void put_name(spelled *it, uint8_t name) {
  for (int i = 0; i < 32; i++) put_octet(it, name);
}

static void put_text(spelled *it, const char *text) {
  while (*text) put_octet(it, *text++);
}

/* The effects of the last step. */
typedef struct {
  uint8_t bytes[512];
  size_t length;
} told;

static told step(resolver_slot *slot, const char *what, const spelled *input) {
  told it = {0};
  EXPECT(resolver_step(slot, input->bytes, input->length) == RESOLVER_OK);
  EXPECT(resolver_told(slot, it.bytes, sizeof it.bytes, &it.length) == RESOLVER_OK);
  printf("%-12s", what);
  for (size_t i = 0; i < it.length; i++) printf(" %02x", it.bytes[i]);
  printf("\n");
  return it;
}

/* Answers what a scan asks until it is over: the least number, every peer may be sent to, and every
   request is accepted. Answers the id of the request. */
static uint64_t scan(resolver_slot *slot, told now) {
  uint64_t id = 0;
  while (now.length > 0) {
    spelled answer = {0};
    EXPECT(now.bytes[0] <= 2);
    if (now.bytes[0] == 0) {
      put_octet(&answer, 16);
      put_moment(&answer, 0);
    } else if (now.bytes[0] == 1) {
      put_octet(&answer, 17);
    } else {
      memcpy(&id, now.bytes + 34, 8);
      put_octet(&answer, 19);
      put_octet(&answer, 1);
    }
    now = step(slot, "  answer", &answer);
  }
  return id;
}

/* A message with this id, which spells it with the high byte first, and a value of five bytes. */
static spelled response(uint64_t now, uint8_t peer, uint64_t id) {
  spelled it = {0};
  put_octet(&it, 8);
  put_moment(&it, now);
  put_name(&it, peer);
  for (int i = 7; i >= 0; i--) put_octet(&it, id >> (8 * i));
  put_octet(&it, 1);
  put_octet(&it, 5);
  put_text(&it, "value");
  return it;
}

static void open_core(resolver_slot *slot) {
  spelled settings = {0};
  put_octet(&settings, 0);
  put_moment(&settings, 1000);
  put_moment(&settings, 100);
  put_count(&settings, 0);
  put_octet(&settings, 0);
  EXPECT(resolver_open(slot, RESOLVER_CORE, settings.bytes, settings.length) == RESOLVER_MISSPELLED);
  EXPECT(slot->at == NULL);
  put_octet(&settings, 0);
  EXPECT(resolver_open(slot, 9, settings.bytes, settings.length) == RESOLVER_MISSPELLED);
  EXPECT(resolver_open(slot, RESOLVER_CORE, settings.bytes, settings.length) == RESOLVER_OK);
  EXPECT(slot->at != NULL);
}

static told fetch_of_core(resolver_slot *slot) {
  spelled peers = {0}, fetch = {0};
  put_octet(&peers, 2);
  put_moment(&peers, 1);
  put_number(&peers, 1);
  put_count(&peers, 1);
  put_name(&peers, 0xb0);
  EXPECT(step(slot, "peer set", &peers).length == 0);
  put_octet(&fetch, 0);
  put_moment(&fetch, 2);
  put_count(&fetch, 1);
  put_name(&fetch, 7);
  put_count(&fetch, 1);
  put_number(&fetch, 3);
  put_number(&fetch, 5);
  put_octet(&fetch, 0);
  return step(slot, "fetch", &fetch);
}

/* The room is too short, and nothing of it was written. */
static void short_room(resolver_slot *slot, size_t needed) {
  uint8_t room[8] = {1, 2, 3, 4, 5, 6, 7, 8}, same[8] = {1, 2, 3, 4, 5, 6, 7, 8};
  size_t length = 0;
  EXPECT(resolver_told(slot, room, 8, &length) == RESOLVER_TOO_SHORT);
  EXPECT(length == needed && memcmp(room, same, 8) == 0);
}

static void core(void) {
  resolver_slot slot = {NULL};
  resolver_counts counts;
  resolver_deadline pending, active;
  uint8_t rows[512];
  size_t length;
  open_core(&slot);
  uint64_t id = scan(&slot, fetch_of_core(&slot));
  resolver_deadlines(&slot, &pending, &active);
  EXPECT(!pending.is && active.is && active.low == 1002 && active.high == 0);
  EXPECT(resolver_rows(&slot, rows, sizeof rows, &length) == RESOLVER_OK);
  EXPECT(length == 32 + 8 + 16 && rows[0] == 7 && rows[32] == 1 && rows[40] == 3 && rows[48] == 5);
  spelled answer = response(20, 0xb0, id), verdict = {0};
  told delivered = step(&slot, "response", &answer);
  EXPECT(delivered.bytes[0] == 3);
  EXPECT(memcmp(delivered.bytes + delivered.length - 5, "value", 5) == 0);
  short_room(&slot, delivered.length);
  put_octet(&verdict, 6);
  put_moment(&verdict, 30);
  memcpy(verdict.bytes + verdict.length, delivered.bytes + 1, 8);
  verdict.length += 8;
  put_octet(&verdict, 1);
  EXPECT(step(&slot, "complete", &verdict).bytes[0] == 7);
  EXPECT(resolver_rows(&slot, rows, sizeof rows, &length) == RESOLVER_OK && length == 0);
  EXPECT(resolver_metrics(&slot, &counts) == RESOLVER_OK);
  EXPECT(counts.fetch.success == 1 && counts.requests_sent.success == 1);
  EXPECT(counts.resolves.count == 1 && counts.resolves.nanoseconds_low == 18);
  EXPECT(resolver_step(&slot, rows, 0) == RESOLVER_MISSPELLED);
  EXPECT(resolver_told(&slot, rows, sizeof rows, &length) == RESOLVER_OK && length == 0);
  resolver_close(&slot);
  EXPECT(slot.at == NULL);
}

static void actor(void) {
  resolver_slot slot = {NULL};
  resolver_counts counts;
  spelled settings = {0}, fetch = {0}, fetched = {0};
  put_moment(&settings, 100);
  EXPECT(resolver_open(&slot, RESOLVER_ACTOR, settings.bytes, settings.length) == RESOLVER_OK);
  put_moment(&fetch, 1);
  put_octet(&fetch, 0);
  put_count(&fetch, 1);
  put_name(&fetch, 7);
  put_count(&fetch, 1);
  put_number(&fetch, 3);
  put_number(&fetch, 5);
  told started = step(&slot, "fetch", &fetch);
  EXPECT(started.length == 41 && started.bytes[0] == 0 && started.bytes[9] == 7);
  put_moment(&fetched, 2);
  put_octet(&fetched, 2);
  put_number(&fetched, 0);
  put_octet(&fetched, 1);
  put_text(&fetched, "value");
  EXPECT(step(&slot, "fetched", &fetched).bytes[0] == 2);
  EXPECT(resolver_metrics(&slot, &counts) == RESOLVER_UNCOUNTED);
  resolver_close(&slot);
}

int main(void) {
  core();
  actor();
  return 0;
}
