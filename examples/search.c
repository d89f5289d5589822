#include <stdio.h>
/* A binary search in a sorted table: the place of each key, or -1 */
int main(void) {
  int table[32];
  int i;
  int key;
  for (i = 0; i < 32; i++) {
    table[i] = i * i + i;
  }
  for (key = 0; key < 1000; key += 90) {
    int low = 0;
    int high = 31;
    int found = -1;
    while (low <= high && found < 0) {
      int middle = (low + high) / 2;
      if (table[middle] == key) {
        found = middle;
      } else if (table[middle] < key) {
        low = middle + 1;
      } else {
        high = middle - 1;
      }
    }
    printf("%d %d\n", key, found);
  }
  return 0;
}
