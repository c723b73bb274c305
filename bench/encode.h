/* An encoder of messages (document 01, "Message layouts"; document 02, Ask 1), for the inputs of the benches. What a
   message has no better value for is random, from a fixed seed: the same at every run. */
#ifndef BENCH_ENCODE_H
#define BENCH_ENCODE_H

#include <stddef.h>
#include <stdint.h>

/* Document 01, "What is built": a data part, and the longest stretch. */
enum { PART = 1695, LONGEST = 30 * PART };

typedef struct {
  uint64_t end; /* length in bits */
  uint8_t bytes[(LONGEST + 7) / 8];
} stretch;

enum { GPS = 0, GLONASS = 1, GALILEO = 2, BEIDOU = 3, QZSS = 4, SYSTEMS = 5, PLACES = 40, NETWORKS = 12 };

/* One system as it is sent. Place 0 is the highest bit of a mask; cells has a row of bits for each satellite. */
typedef struct {
  unsigned id;
  uint64_t satellites;
  unsigned signals;
  unsigned flag;
  unsigned cells[PLACES];
} constellation;

typedef struct {
  unsigned iod;
  unsigned systems;
  constellation system[SYSTEMS];
  uint64_t selections[NETWORKS]; /* the satellites of each network, the first one highest, for sub types 6 and 11 */
} mask;

/* A random number under n; a random number of so many bits, wanted of which are set. */
unsigned below(unsigned n);
uint64_t choose(unsigned wanted, unsigned bits);

unsigned ones(uint64_t bits);
unsigned satellite_count(const mask *m);
unsigned cell_count(const mask *m);

/* Each puts a message, or nothing but bits, at the end of a stretch that has room for it. */
void put(stretch *s, unsigned width, uint64_t value);
void put_mask(stretch *s, const mask *m, unsigned epoch);
void put_orbits(stretch *s, const mask *m, unsigned epoch);
void put_clocks(stretch *s, const mask *m, unsigned epoch);
void put_code_biases(stretch *s, const mask *m, unsigned epoch);
void put_phase_biases(stretch *s, const mask *m, unsigned epoch);
void put_accuracy(stretch *s, const mask *m, unsigned epoch);
void put_service(stretch *s, unsigned counter, unsigned size);

/* Sub types 11 and 6: their two flags, of orbit and clock or of code and phase bias, and of which network (from 0), all
   satellites with NO_NETWORK. In sub type 6 a network has no satellite without a cell: that is refused. */
enum { NO_NETWORK = NETWORKS };
typedef struct {
  unsigned first;
  unsigned second;
  unsigned network;
} combination;
void put_combined(stretch *s, const mask *m, unsigned epoch, const combination *c);
void put_combined_biases(stretch *s, const mask *m, unsigned epoch, const combination *c);

#endif
