/* The work of examples/packet.c by main alone. */
#include <stdio.h>

#define PACKETS 16
#define HDR 20
#define LEN 24
#define BYTES 384

static unsigned char mem[BYTES];
static unsigned good, bad, web, dns, other;

static void classify(unsigned sum, unsigned d) {
  if (sum) { bad++; return; }
  good++;
  if (d == 80 || d == 443) web++;
  else if (d == 53) dns++;
  else other++;
}

int main(void) {
  unsigned r = 1;
  for (int p = 0; p < PACKETS; p++) {
    unsigned s = 0;
    for (int i = 0; i < LEN; i++) {
      r = r * 1664525u + 1013904223u;
      mem[p * LEN + i] = r >> 24;
    }
    /* every fourth packet keeps a bad sum */
    if (p % 4 != 3) {
      mem[p * LEN + 10] = 0;
      mem[p * LEN + 11] = 0;
      for (int i = 0; i < HDR; i += 2)
        s += (unsigned)mem[p * LEN + i] << 8 | mem[p * LEN + i + 1];
      while (s >> 16) s = (s & 0xffff) + (s >> 16);
      s = ~s;
      mem[p * LEN + 10] = s >> 8;
      mem[p * LEN + 11] = s;
    }
    mem[p * LEN + 22] = 0;
    if (p % 3 == 0) mem[p * LEN + 23] = 80;
    else if (p % 3 == 1) mem[p * LEN + 23] = 53;
  }
  for (int p = 0; p < PACKETS; p++) {
    unsigned s = 0;
    for (int i = 0; i < HDR; i += 2)
      s += (unsigned)mem[p * LEN + i] << 8 | mem[p * LEN + i + 1];
    while (s >> 16) s = (s & 0xffff) + (s >> 16);
    classify((unsigned short)~s, (unsigned short)(mem[p * LEN + 22] << 8 | mem[p * LEN + 23]));
  }
  printf("good %u bad %u web %u ", good, bad, web);
  printf("dns %u other %u\n", dns, other);
  return 0;
}
