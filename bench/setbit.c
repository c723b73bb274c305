#include "setbit.h"

void setbitu(uint8_t *buff, int pos, int len, uint32_t data) {
  if (len <= 0 || 32 < len) return;
  uint32_t mask = 1u << (len - 1);
  for (int i = pos; i < pos + len; i++, mask >>= 1) {
    if (data & mask)
      buff[i / 8] |= (uint8_t)(1u << (7 - i % 8));
    else
      buff[i / 8] &= (uint8_t)~(1u << (7 - i % 8));
  }
}

void setbits(uint8_t *buff, int pos, int len, int32_t data) { setbitu(buff, pos, len, (uint32_t)data); }
