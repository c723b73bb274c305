/* What programs that compare the host interface lend to a call: buffers of which not a byte before and not a byte behind
   may be touched. One end of a buffer lies at a page that stops whoever touches it, the first and the last in turn, and
   guard bytes lie at the other; on a machine without such pages guard bytes lie at both. */
#ifndef TESTS_LENDING_H
#define TESTS_LENDING_H

#include <stdbool.h>
#include <stddef.h>
#include <stdint.h>

/* What is lent, and what it must be after the call. The space is the most that is ever lent, the count what is lent now,
   both in bytes. The rest is lending.c's own. */
typedef struct {
  const char *name;
  size_t space, count;
  uint8_t *got, *want, *memory;
  bool last;
} buffer;

/* A stretch is read, a target is written; a head and rows are numbers. */
extern buffer holding, stretch, head, rows, line, target;

/* A buffer's bytes as numbers. */
int32_t *numbers(uint8_t *bytes);

/* Lending another count of a buffer: what is in it is the caller's to set, or it is filled by the second program's
   rule. */
void lend(buffer *b, size_t count);
void fill_numbers(buffer *b, size_t count, uint64_t seed);
void fill_bytes(buffer *b, size_t count, uint64_t seed);

/* Where a call may write a result of so many bytes. What is in it, the caller compares. */
void *lend_result(size_t count);

/* After a call: tells of each buffer that is not what it must be, and of each guard. Then all are as they must be, so that
   a difference is told once. */
void compare_buffers(void);

/* Prints what is lent. */
void tell_lent(void);

#endif
