/* Either machine of the resolver for C programs: a core that fetches keys from peers, or an actor that
   fetches them from one source. `crates/resolver_c` proves what stands behind these declarations; what
   they say of the archive, nothing checks. bindings/BYTES.md has how inputs, effects, rows and settings
   are spelled as bytes, and docs/BINDINGS.md how the archive is built and what its user answers for.

   A program keeps a slot, opens a machine in it, hands it inputs, and carries out the effects that each
   of them has:

       resolver_slot slot = {NULL};
       if (resolver_open(&slot, RESOLVER_CORE, settings, settings_length) != RESOLVER_OK) ..
       if (resolver_step(&slot, input, input_length) != RESOLVER_OK) ..
       if (resolver_told(&slot, effects, sizeof effects, &length) != RESOLVER_OK) ..
       resolver_close(&slot);

   Of every call but resolver_open the slot has a machine. A slot is used by one call at a time, from
   whichever thread, and so are the rooms that a call is handed. No pointer is null, also where
   its length is 0, and no two point to the same memory. */
#ifndef RESOLVER_H
#define RESOLVER_H

#include <stdbool.h>
#include <stddef.h>
#include <stdint.h>

#ifdef __cplusplus
extern "C" {
#endif

/* The address of a machine, or null where the slot is empty: as it is made, and after resolver_close.
   Nobody else reads or changes what it points to, and a slot is not copied. */
typedef struct resolver_slot {
  void *at;
} resolver_slot;

/* Kinds of machines: over names of 32 bytes, and the short ones over names of 8. */
#define RESOLVER_CORE 0
#define RESOLVER_ACTOR 1
#define RESOLVER_SHORT_CORE 2
#define RESOLVER_SHORT_ACTOR 3

/* What a call answers: 0, or why it was refused. */
#define RESOLVER_OK 0
/* There is no memory. A machine that answers it to a step has failed. */
#define RESOLVER_OUT_OF_MEMORY 1
/* The machine ran out of memory or of numbers in an earlier step. */
#define RESOLVER_FAILED 2
/* The machine was told to end. */
#define RESOLVER_ENDED 3
/* An event came while a scan expects an answer. */
#define RESOLVER_BUSY 4
/* An answer came that no scan expects. */
#define RESOLVER_UNASKED 5
/* A drawn number is not below the bound that was asked for. */
#define RESOLVER_OUT_OF_RANGE 6
/* A number past 2^64 - 1 is needed: the machine has failed. */
#define RESOLVER_EXHAUSTED 7
/* The bytes spell no input or no settings, or there is no such kind. */
#define RESOLVER_MISSPELLED 64
/* There is no memory to read the input: the machine is as it was. */
#define RESOLVER_UNREAD 65
/* The room is too short: `length` says how many bytes are needed. */
#define RESOLVER_TOO_SHORT 66
/* An actor counts nothing. */
#define RESOLVER_UNCOUNTED 67

/* How often each of four ends came. */
typedef struct resolver_ends {
  uint64_t success, ambiguous, failure, dropped;
} resolver_ends;

/* How many times were measured, and their sum: 128 bits in two halves. */
typedef struct resolver_lasted {
  uint64_t count, nanoseconds_low, nanoseconds_high;
} resolver_lasted;

/* What a core has counted since it was opened, and how much of three things it has now. The source of
   `resolver_c` says what each counts (crates/resolver_c/src/counts.rt). */
typedef struct resolver_counts {
  uint64_t fetch_pending, fetch_active, serve_processing;
  resolver_ends fetch, cancel, serve, requests_sent;
  resolver_lasted serve_duration, fetch_duration, resolves;
} resolver_counts;

/* A moment in nanoseconds, 128 bits in two halves, if there is one. */
typedef struct resolver_deadline {
  bool is;
  uint64_t low, high;
} resolver_deadline;

/* Opens a machine of this kind, with the settings that these bytes spell, in an empty slot.
   RESOLVER_OK; or RESOLVER_OUT_OF_MEMORY or RESOLVER_MISSPELLED: then the slot is empty still. */
uint8_t resolver_open(resolver_slot *slot, uint8_t kind, const uint8_t *settings,
                      size_t settings_length);

/* Takes the input that these bytes spell, all of them.
   RESOLVER_OK: its effects are kept until the next step. Else why it was refused, and there are no
   effects: the machine is as it was, but for RESOLVER_OUT_OF_MEMORY and RESOLVER_EXHAUSTED, after
   which each later step that spells an input answers RESOLVER_FAILED. */
uint8_t resolver_step(resolver_slot *slot, const uint8_t *input, size_t input_length);

/* Writes the effects of the last step to the front of `out`, one behind the other.
   RESOLVER_OK: `length` is how many bytes they have, and the room behind them is as it was. Else
   nothing of `out` was written: at RESOLVER_TOO_SHORT `length` is how many bytes they have, at
   RESOLVER_OUT_OF_MEMORY it is 0. They can be asked for again and again. */
uint8_t resolver_told(resolver_slot *slot, uint8_t *out, size_t out_length, size_t *length);

/* Writes the demanded keys in their order, each with its subscribers. It answers as resolver_told
   does; and RESOLVER_FAILED, with a `length` of 0. */
uint8_t resolver_rows(resolver_slot *slot, uint8_t *out, size_t out_length, size_t *length);

/* Says what a core has counted. RESOLVER_OK; or RESOLVER_UNCOUNTED: then `counts` is as it was. */
uint8_t resolver_metrics(resolver_slot *slot, resolver_counts *counts);

/* Says when to step the machine though nothing else happens. `pending` is when a scan may do
   something, or when a waiting key of an actor is due; `active` is when the time of a request is over,
   which an actor's has none. */
void resolver_deadlines(resolver_slot *slot, resolver_deadline *pending, resolver_deadline *active);

/* Ends the machine, gives its memory back, and leaves the slot empty. */
void resolver_close(resolver_slot *slot);

#ifdef __cplusplus
}
#endif

#endif
