#include "families.h"

#include <stdio.h>
#include <string.h>

static const unsigned answers[ANSWERS] = {[DONE] = HUNDURZEK_DONE, [REFUSED] = 12, [ROOM] = 1,        [PLACE] = 2,
                                          [SUBTYPE] = 5,           [NO_MASK] = 6,  [OTHER_ISSUE] = 7, [NETWORK] = 11};

static size_t index_of(uint64_t answer) {
  for (size_t i = 0; i < ANSWERS; i++)
    if (answers[i] == answer) return i;
  broken("no such answer");
}

static family *family_of(family *families, size_t count, const char *name, size_t letters) {
  for (family *f = families; f < families + count; f++)
    if (strlen(f->name) == letters && memcmp(f->name, name, letters) == 0) return f;
  broken(name);
}

void count_answer(kind *k, family *families, size_t count, uint64_t answer) {
  size_t at = index_of(answer), letters;
  const char *name = now.family;
  k->counts[at]++;
  do {
    letters = strcspn(name, ",");
    family_of(families, count, name, letters)->counts[at]++;
    name += letters;
  } while (*name++ == ',');
}

static bool came(const kind *kinds, size_t count, size_t answer) {
  for (size_t k = 0; k < count; k++)
    if (kinds[k].counts[answer] > 0) return true;
  return false;
}

void print_answers(const kind *kinds, size_t count) {
  for (size_t i = 0; i < ANSWERS; i++)
    if (came(kinds, count, i)) print_counts("answer", answers[i], kinds, count, i);
}

static bool came_in(const family *families, size_t count, size_t answer) {
  for (const family *f = families; f < families + count; f++)
    if (f->counts[answer] > 0) return true;
  return false;
}

static void print_family(const family *families, size_t count, const family *f) {
  printf("%-32s", f ? f->name : "");
  for (size_t i = 0; i < ANSWERS; i++) {
    if (!came_in(families, count, i)) continue;
    if (f)
      printf(" %7lu", f->counts[i]);
    else
      printf(" %7u", answers[i]);
  }
  printf("\n");
}

void judge_families(const family *families, size_t count) {
  print_family(families, count, NULL);
  for (const family *f = families; f < families + count; f++) {
    print_family(families, count, f);
    for (size_t i = 0; i < ANSWERS; i++) need(f->counts[i], f->least[i], f->name, f->counts[i]);
  }
}
