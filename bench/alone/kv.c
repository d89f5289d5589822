/* The work of examples/kv.c by main alone. */
#include <stdio.h>

#define SLOTS 64
#define STRIPES 4
#define WORKERS 3
#define OPS 24

static unsigned key[SLOTS], val[SLOTS];

static unsigned hash(unsigned k) { k ^= k >> 16; k *= 0x7feb352du; k ^= k >> 15; return k; }

static int find(unsigned k) {
  unsigned h = hash(k);
  h = h % SLOTS;
  while (key[h] != 0 && key[h] != k)
    h = (h + STRIPES) % SLOTS;
  return h;
}

int main(void) {
  for (int id = 0; id < WORKERS; id++)
    for (int n = 0; n < OPS; n++) {
      unsigned k = 1 + (n * 7 + id * 3) % 40;
      int i = find(k);
      key[i] = k;
      val[i] += n;
    }
  unsigned used = 0, total = 0;
  for (int i = 0; i < SLOTS; i++) { used += key[i] != 0; total += val[i]; }
  printf("%u keys, total %u\n", used, total);
  return 0;
}
