#include <stdio.h>
/* Wolfram's rule 30 on a ring of 32 cells: the number of living cells in each generation, and the last row */
int main(void) {
  unsigned row = 65536u;
  int generation;
  for (generation = 0; generation < 16; generation++) {
    unsigned left = row >> 1 | row << 31;
    unsigned right = row << 1 | row >> 31;
    unsigned cells = row;
    int living = 0;
    while (cells) {
      living += (int)(cells & 1u);
      cells >>= 1;
    }
    printf("%d %d\n", generation, living);
    row = left ^ (row | right);
  }
  printf("%u\n", row);
  return 0;
}
