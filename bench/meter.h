/* What the benches measure of a job that calls for all of an input: instructions and the deepest stack. */
#ifndef BENCH_METER_H
#define BENCH_METER_H

#include <stddef.h>

typedef void job(void);

/* Does it once, then again, for an instruction counter: two marks, nothing between them, the second time, a mark. */
void do_marked(job *all);

/* Does it on a stack of its own that was painted before: how many bytes at its deep end are still painted. */
size_t painted_after(job *all);

#endif
