/* Reads stretches that are described by a line each, for an instruction counter that is told when one begins and ends.

     worst WAY LINES MADE    reads the file LINES; writes a line BITS MESSAGES LINE for each of them to the file MADE

   WAY is walks or messages. A mark (bench/lib/icount.c) stands before and after each stretch, and twice before all of
   them, with nothing between. A line is MASK LOOP:

     MASK    SYSTEMS.SATELLITES.SIGNALS.FLAG.CELLS: the satellites spread over the systems, each system with so many
             signals, so many of which count for each satellite
     LOOP    messages, joined by commas: m, that mask again; mMASK, another, under which the rest stands; 2, 3, 4, 5, 7;
             10.SIZE; 6.CODE.PHASE.SELECTED and 11.ORBIT.CLOCK.SELECTED, a network with so many satellites, or all and
             no network with n; where there is another mask, the loop begins with one, so that it is as long every time

   Another mask has another IOD SSR than the one before it, or it would be refused with 13: so a loop has none of these,
   or two and more.

   The stretch is the mask and the loop again and again, as often as the longest stretch has room. It was read once
   before, so that the holding is the one it leaves. With LOOP - it has no bits. */
#include <inttypes.h>
#include <stdbool.h>
#include <stdio.h>
#include <stdlib.h>
#include <string.h>

#include "encode.h"
#include "hundurzek.h"
#include "mark.h"

/* ---- masks */

/* In the order in which systems come in, those with fewer assigned places last. */
static const struct {
  unsigned id;
  unsigned places;
} assigned[SYSTEMS] = {{GPS, 40}, {BEIDOU, 40}, {GALILEO, 37}, {GLONASS, 24}, {QZSS, 10}};

/* So many of the highest of width bits. */
static uint64_t top(unsigned count, unsigned width) {
  return count == 0 ? 0 : UINT64_MAX >> (64 - count) << (width - count);
}

/* Every other of the first 16 places, then those between, lest all stand together. */
static unsigned spread_signals(unsigned count) {
  unsigned signals = 0;
  for (unsigned k = 0; k < count; k++) signals |= 0x8000u >> (k < 4 ? 2 * k : k < 8 ? 2 * (k - 4) + 1 : k);
  return signals;
}

static bool parse_mask(const char *text, unsigned iod, mask *m) {
  unsigned systems, satellites, signals, flag, cells;
  if (sscanf(text, "%u.%u.%u.%u.%u", &systems, &satellites, &signals, &flag, &cells) != 5) return false;
  *m = (mask){.iod = iod, .systems = systems};
  for (unsigned k = systems; k-- > 0;) {
    unsigned share = satellites / (k + 1);
    if (share > assigned[k].places) share = assigned[k].places;
    satellites -= share;
    m->system[k] = (constellation){.id = assigned[k].id, .signals = spread_signals(signals), .flag = flag};
    m->system[k].satellites = choose(share, assigned[k].places) << (PLACES - assigned[k].places);
    for (unsigned j = 0; j < share; j++) m->system[k].cells[j] = (unsigned)top(flag ? cells : signals, signals);
  }
  return satellites == 0;
}

/* ---- messages */

/* What a message of sub type 6 or 11 has after its sub type. */
static combination parse_combination(const char *text, mask *m) {
  combination c = {0, 0, NO_NETWORK};
  unsigned selected;
  if (sscanf(text, "%*u.%u.%u.%u", &c.first, &c.second, &selected) == 3) {
    c.network = 0;
    m->selections[0] = top(selected, satellite_count(m));
  }
  return c;
}

/* The message that is so many behind the loop's first. */
static bool put_message(stretch *s, mask *m, const char *text, unsigned behind) {
  combination c = parse_combination(text, m);
  if (*text == 'm') {
    if (text[1] && !parse_mask(text + 1, behind, m)) return false;
    put_mask(s, m, 0);
    return true;
  }
  switch (atoi(text)) {
    case 2: put_orbits(s, m, 0); return true;
    case 3: put_clocks(s, m, 0); return true;
    case 4: put_code_biases(s, m, 0); return true;
    case 5: put_phase_biases(s, m, 0); return true;
    case 6: put_combined_biases(s, m, 0, &c); return true;
    case 7: put_accuracy(s, m, 0); return true;
    case 10: put_service(s, 0, (unsigned)atoi(text + 3)); return true;
    case 11: put_combined(s, m, 0, &c); return true;
    default: return false;
  }
}

static bool put_loop(stretch *s, mask *m, const char *loop) {
  char text[256];
  unsigned behind = 0;
  snprintf(text, sizeof text, "%s", loop);
  for (char *message = strtok(text, ","); message; message = strtok(NULL, ","))
    if (!put_message(s, m, message, behind++)) return false;
  return true;
}

/* The IOD SSR of the mask before the loop. */
enum { FIRST = 15 };

static bool make_stretch(stretch *s, const char *setup, const char *loop) {
  mask m;
  uint64_t length;
  *s = (stretch){0};
  if (!parse_mask(setup, FIRST, &m)) return false;
  put_mask(s, &m, 0);
  if (*loop == '-') return true;
  do {
    length = s->end;
    if (!put_loop(s, &m, loop)) return false;
    length = s->end - length;
  } while (s->end + length <= LONGEST);
  return true;
}

/* ---- reading */

static _Alignas(64) uint8_t holding[HUNDURZEK_HOLDING];
static _Alignas(64) int32_t rows[HUNDURZEK_ROOM];
static _Alignas(64) stretch made;
static hundurzek_walked walked;
static hundurzek_reading reading;

static uint64_t read_walk(void) {
  hundurzek_walk(&walked, holding, sizeof holding, made.bytes, (made.end + 7) / 8, made.end, rows, HUNDURZEK_ROOM);
  return walked.messages;
}

static uint64_t read_messages(void) {
  reading.place = 0;
  for (uint64_t messages = 0;; messages++) {
    hundurzek_read(&reading, holding, sizeof holding, made.bytes, (made.end + 7) / 8, made.end, reading.place, rows,
                   HUNDURZEK_ROOM);
    if (reading.answer != HUNDURZEK_MESSAGE) return messages;
  }
}

/* Whether there is such a stretch, and all of it is read. */
static bool read_line(const char *line, uint64_t (*read_all)(void), FILE *out) {
  char setup[64], loop[256];
  if (sscanf(line, "%63s %255s", setup, loop) != 2 || !make_stretch(&made, setup, loop)) return false;
  hundurzek_empty(holding, sizeof holding);
  read_all();
  if (*loop == '-') made.end = 0;
  mark();
  uint64_t messages = read_all();
  mark();
  fprintf(out, "%" PRIu64 " %" PRIu64 " %s", made.end, messages, line);
  return walked.answer == 0 && reading.answer == 0;
}

int main(int argc, char **argv) {
  char line[512];
  if (argc != 4) return 2;
  FILE *in = fopen(argv[2], "r"), *out = fopen(argv[3], "w");
  if (!in || !out) return 2;
  mark();
  mark();
  while (fgets(line, sizeof line, in))
    if (!read_line(line, strcmp(argv[1], "walks") ? read_messages : read_walk, out)) {
      fprintf(stderr, "no such stretch: %s", line);
      return 1;
    }
  return fclose(out) == 0 ? 0 : 1;
}
