/* Hoare's quicksort of thirty-two numbers, with a stack of its own for the parts that are left, since no function may
   call itself. The pivot is the median of three. */
#include <stdio.h>
#define SIZE 32
#define DEPTH 8

int keys[SIZE];
int stack[DEPTH][2];

static int median(int a, int b, int c) {
  return a < b ? b < c ? b : a < c ? c : a : a < c ? a : b < c ? c : b;
}

int main(void) {
  unsigned x = 7;
  int top = 1;
  int i;
  for (i = 0; i < SIZE; i++) {
    x = x * 1664525 + 1013904223;
    keys[i] = (int)(x >> 20) - 2048;
  }
  stack[0][0] = 0;
  stack[0][1] = SIZE - 1;
  while (top > 0) {
    int first, last, low, high, pivot;
    top--;
    first = stack[top][0];
    last = stack[top][1];
    if (first >= last) continue;
    pivot = median(keys[first], keys[(first + last) / 2], keys[last]);
    low = first;
    high = last;
    while (low <= high) {
      while (keys[low] < pivot) low++;
      while (keys[high] > pivot) high--;
      if (low <= high) {
        int key = keys[low];
        keys[low] = keys[high];
        keys[high] = key;
        low++;
        high--;
      }
    }
    /* the longer part waits, so that the stack stays low */
    stack[top][0] = high - first > last - low ? first : low;
    stack[top][1] = high - first > last - low ? high : last;
    stack[top + 1][0] = high - first > last - low ? low : first;
    stack[top + 1][1] = high - first > last - low ? last : high;
    top += 2;
  }
  for (i = 0; i < SIZE; i++)
    printf("%d\n", keys[i]);
  return 0;
}
