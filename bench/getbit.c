#include "getbit.h"

uint32_t getbitu(const uint8_t *buff, int pos, int len) {
  uint32_t bits = 0;
  for (int i = pos; i < pos + len; i++) bits = (bits << 1) + ((buff[i / 8] >> (7 - i % 8)) & 1u);
  return bits;
}

int32_t getbits(const uint8_t *buff, int pos, int len) {
  uint32_t bits = getbitu(buff, pos, len);
  if (len <= 0 || 32 <= len || !(bits & (1u << (len - 1)))) return (int32_t)bits;
  return (int32_t)(bits | (~0u << len)); /* the sign, in the bits above */
}
