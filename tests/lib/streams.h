/* For programs that compare the host interface with the second program, whose cases and answers come as streams
   on the standard input (second/emit.rs and what is in second/emit/ say their format byte by byte). What is lent
   (lending.h) is compared whole, and what is around it, with what it must be after each call. */
#ifndef TESTS_STREAMS_H
#define TESTS_STREAMS_H

#include <stdbool.h>
#include <stddef.h>
#include <stdint.h>

#include "hundurzek.h"
#include "lending.h"

#ifndef PART
#define PART 1
#endif

/* The answers that are no message: document 01's 0 to 12, and 13, changed mask (document 02, Ask 2). */
enum { STOPS = 14, CHANGED_MASK = 13 };

/* Of a holding's bytes the one that says whether a mask is held, and that of how many satellites (docs/HOST.md). */
enum { HELD = 0, SATELLITES = 3 };

/* A kind of stream: how many records of it must come, and what came. A program numbers what it counts as it likes. */
enum { COUNTS = 32 };
typedef struct {
  const char *name;
  unsigned long least, records, calls, counts[COUNTS];
} kind;

/* What is being compared, for reports: a call of a record, at a place of a stretch of so many bits. */
typedef struct {
  const char *kind;
  unsigned long record, call;
  char family[256];
  uint64_t end, place;
} case_name;

extern case_name now;

/* Compares each record of each stream after taking its family, and needs so many of each kind as must come. Then
   prints the kinds' names, for print_counts. */
void compare_streams(kind *kinds, size_t count, void compare_record(kind *k));

/* Taking what comes after that in a record: bytes, a number; and where it is not what it should be. */
void get(void *to, size_t count);
uint64_t number(size_t width);
_Noreturn void broken(const char *what);

/* Lending so many bytes that come. */
void take_lent(buffer *b, size_t count);

/* Taking the name of what is compared from now on: compare_streams does it for each record. */
void take_family(void);

/* Taking what a reading or a walk is lent: holding, stretch, row buffer, and the stretch's length and start. */
void take_stretch(void);

/* So many bits at a place of that stretch, as a number. */
uint64_t bits(uint64_t place, unsigned count);

/* Comparing after a call: what it answered, number by number, and then the buffers, by which the call is counted. */
void differ(const char *format, ...);
void compare(const char *what, uint64_t got, uint64_t want);
void compare_lent(void);

/* Compares a result with what it must be, and what was returned with where it was to be written. */
void compare_done(const hundurzek_done *got, const void *out, const hundurzek_done *want);

/* The end: how often each kind has what is counted, what must have come, and the last line, with the status. What must
   come is said for the whole streams; where the PART-th part of them is compared, so much less must. */
void print_counts(const char *what, unsigned long which, const kind *kinds, size_t count, size_t counted);
void need(unsigned long came, unsigned long least, const char *what, unsigned long which);
int finish(void);

#endif
