#include "as_host.h"

#include <stdbool.h>

#include "tuned_write.h"

/* Of fewer bytes than a holding has none are lent. */
hundurzek_done *tuned_as_host(hundurzek_done *out, const uint8_t *holding, uint64_t holding_count, const int32_t *head,
                              uint64_t head_count, const int32_t *numbers, uint64_t number_count, uint64_t rows,
                              uint8_t *bytes, uint64_t count, uint64_t start) {
  static tuned_sent_mask mask;
  bool whole = holding_count >= HUNDURZEK_HOLDING;
  if (whole) tuned_hold(&mask, holding);
  return tuned_write(out, (const uint8_t *)&mask, whole ? sizeof mask : 0, head, head_count, numbers, number_count,
                     rows, bytes, count, start);
}
