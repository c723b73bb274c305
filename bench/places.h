/* Document 01, "Held mask and assigned places": how many places each system has, by its ID. */
#ifndef BENCH_PLACES_H
#define BENCH_PLACES_H

static const int satellite_places[] = {40, 24, 37, 40, 10};
static const int signal_places[] = {14, 13, 15, 9, 10};

#endif
