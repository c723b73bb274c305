/* Hundurzek for C: one Compact SSR message at a time, or a whole stretch of them; a holding as a line of text, and the
   lines that say stretches. docs/HOST.md fixes, byte by byte, how a holding and rows pass, what each function answers
   for every input, and what its caller sees to. A slice is a pointer and a count, never null. A result of more than
   one number is written where the first pointer points, and that pointer is returned. Counts and places have 64 bits
   on every processor. */
#ifndef HUNDURZEK_H
#define HUNDURZEK_H

#include <stdint.h>

/* Bytes of a holding, numbers of a row, the numbers that a row buffer needs, and what isn't there. */
#define HUNDURZEK_HOLDING 194
#define HUNDURZEK_ROW 8
#define HUNDURZEK_ROOM 2048
#define HUNDURZEK_ABSENT (-32768)

/* The answer to reading that is a message, and to what is done with a line; 0 to 12 are document 01's numbers, 13 is
   document 02's: another mask under the IOD SSR of the one held, which is dropped then. */
#define HUNDURZEK_MESSAGE 255
#define HUNDURZEK_DONE 255

/* Bytes that are room for every saved line, and for the stretch of every line of the listing's input. */
#define HUNDURZEK_LINE 512
#define HUNDURZEK_STRETCH 6357

typedef struct {
  int32_t subtype;
  int32_t epoch;
  int32_t interval;
  int32_t indicator;
  int32_t iod;
  int32_t a;
  int32_t b;
  int32_t c;
} hundurzek_head;

typedef struct {
  uint64_t answer;     /* 0 to 13, or HUNDURZEK_MESSAGE */
  uint64_t place;      /* after the message; else the start asked for */
  uint64_t missing;    /* answer 3: how many bits of the field or the body are past the end, 1 or more; else 0 */
  uint64_t rows;       /* of the message; else 0 */
  uint64_t raw_offset; /* the message's raw bytes: where they begin in the stretch, */
  uint64_t raw_count;  /* and how many; else 0 and 0 */
  hundurzek_head head; /* of the message; else eight times HUNDURZEK_ABSENT */
} hundurzek_reading;

typedef struct {
  uint64_t answer;   /* why the walk stopped: 0 to 13 */
  uint64_t place;    /* and where */
  uint64_t missing;  /* answer 3: how many bits of the field or the body are past the end, 1 or more; else 0 */
  uint64_t messages; /* accepted before the stop, */
  uint64_t rows;     /* and the rows of all of them */
} hundurzek_walked;

typedef struct {
  uint64_t answer; /* HUNDURZEK_DONE; else the refusal's number */
  uint64_t place;  /* after a message written, else the start asked for: of a line always 0 */
  uint64_t count;  /* of a message's or a stretch's bits, or of a saved line's bytes; else 0 */
} hundurzek_done;

typedef struct {
  uint64_t answer;                    /* HUNDURZEK_DONE; else 12 */
  uint8_t holding[HUNDURZEK_HOLDING]; /* what the line says; else the empty holding */
} hundurzek_loaded;

/* Makes the empty holding: 0, or 1 and nothing changed where fewer than HUNDURZEK_HOLDING bytes are lent. */
uint64_t hundurzek_empty(uint8_t *holding, uint64_t holding_count);

/* Reads the message at bit place start of a stretch of end bits. The holding becomes a mask message's own, with answer
   13 the empty one, so that the next mask is taken, and stays with all else. */
hundurzek_reading *hundurzek_read(hundurzek_reading *out, uint8_t *holding, uint64_t holding_count,
                                  const uint8_t *bytes, uint64_t count, uint64_t end, uint64_t start, int32_t *rows,
                                  uint64_t row_count);

/* Reads a stretch of end bits message by message, from place 0 until idle or a refusal. The holding becomes the one
   after the last message accepted, or the empty one where the walk stops with 13; the row buffer is left as those
   readings, one after another, leave it. */
hundurzek_walked *hundurzek_walk(hundurzek_walked *out, uint8_t *holding, uint64_t holding_count, const uint8_t *bytes,
                                 uint64_t count, uint64_t end, int32_t *rows, uint64_t row_count);

/* Writes a message of a head of eight numbers and so many rows at bit place start of the bytes lent; every bit outside
   it keeps its value. */
hundurzek_done *hundurzek_write(hundurzek_done *out, const uint8_t *holding, uint64_t holding_count,
                                const int32_t *head, uint64_t head_count, const int32_t *numbers, uint64_t number_count,
                                uint64_t rows, uint8_t *bytes, uint64_t count, uint64_t start);

/* Saves a holding as a line, its line feed too, from the line buffer's first byte on. */
hundurzek_done *hundurzek_save(hundurzek_done *out, const uint8_t *holding, uint64_t holding_count, uint8_t *line,
                               uint64_t line_count);

/* Loads the holding that a saved line says. */
hundurzek_loaded *hundurzek_load(hundurzek_loaded *out, const uint8_t *line, uint64_t line_count);

/* Takes the stretch that a line of the listing's input says, into the first of the bytes lent. */
hundurzek_done *hundurzek_line(hundurzek_done *out, const uint8_t *line, uint64_t line_count, uint8_t *bytes,
                               uint64_t count);

#endif
