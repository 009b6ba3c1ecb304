#include <stdint.h>

uint8_t average(uint8_t a, uint8_t b) { return (uint8_t)((a & b) + ((a ^ b) >> 1)); }

uint8_t without_lowest_bit(uint8_t x) { return x & (uint8_t)(x - 1); }

int8_t absolute(int8_t x) { int8_t sign = x >> 7; return (int8_t)((x + sign) ^ sign); }

_Bool is_even(uint16_t x) { return x % 2 == 0; }

int16_t smaller(int8_t a, int8_t b) { return a < b ? a : b; }

uint32_t mixed(uint32_t hash, uint32_t key) {
  key *= 0xcc9e2d51u;
  key = key << 15 | key >> 17;
  hash ^= key;
  return hash * 5 + 0xe6546b64u;
}

int count(const char *text, char c) {
  int found = 0;
  for (; *text; text++)
    if (*text == c)
      found++;
  return found;
}

double half(double x) { return x / 2; }
