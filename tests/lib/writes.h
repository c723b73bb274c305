/* For programs that compare hundurzek_write: the records of second/emit/writes.rs, and facts about what was lent, which
   are found here and not said by the second program. */
#ifndef TESTS_WRITES_H
#define TESTS_WRITES_H

#include "streams.h"

/* How many bytes of the holding, and numbers of the head and of the rows, are lent: what else is in their buffers lies
   behind that, and must not count. How many rows are counted. */
typedef struct {
  size_t holding, head, rows;
} slice_counts;

extern slice_counts lent;
extern uint64_t counted;

/* All of it, again after the buffers were lent anew. */
void lend_all(void);

/* Taking what a write is lent: holding, head, rows, what is counted of them, the bytes, and the start. */
void take_writing(void);

/* The next answer that is expected; the bytes are wanted as it leaves them. */
hundurzek_done take_written(void);

/* A number of the head as it is lent. */
int32_t head_number(size_t column);

/* Counts the facts that hold of the write that is lent and what it must answer; prints how often each came, and needs
   what must come. */
void count_facts(const hundurzek_done *want);
void judge_facts(void);

#endif
