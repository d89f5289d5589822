#include <stdio.h>
/* The mixing rounds of a 64-bit hash: xor, shift and multiply */
int main(void) {
  unsigned long key;
  for (key = 0ul; key < 8ul; key++) {
    unsigned long h = key + 0x9e3779b97f4a7c15ul;
    int round;
    for (round = 0; round < 2; round++) {
      h ^= h >> 30;
      h *= 0xbf58476d1ce4e5b9ul;
      h ^= h >> 27;
      h *= 0x94d049bb133111ebul;
      h ^= h >> 31;
    }
    printf("%lu %lu\n", key, h);
  }
  return 0;
}
