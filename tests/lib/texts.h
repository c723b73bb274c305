/* For programs that compare what the host interface does with lines: taking the records of second/emit/texts.rs. */
#ifndef TESTS_TEXTS_H
#define TESTS_TEXTS_H

#include "families.h"

/* Taking what is lent: holding, line, and the buffer to be written, which may be the line. */
void take_text(buffer *written);

/* The answer that is expected; the buffer is wanted as it is left then. */
hundurzek_done take_done(buffer *written);

#endif
