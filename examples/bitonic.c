/* Batcher's bitonic sort of sixteen numbers: eight threads, each of which compares one pair of them in every
   step, and exchanges the two where they are out of order. A barrier ends each step. */
#include <pthread.h>
#include <stdio.h>
#define SIZE 16
#define PAIRS 8

pthread_t workers[PAIRS];
pthread_barrier_t step;
int keys[SIZE];

void *exchange(void *arg) {
  int pair = (int)(long)arg;
  int length, distance, low, high, a, b;
  for (length = 2; length <= SIZE; length *= 2)
    for (distance = length / 2; distance > 0; distance /= 2) {
      low = 2 * pair - (pair & (distance - 1));
      high = low + distance;
      a = keys[low];
      b = keys[high];
      if (((low & length) == 0 && a > b) || ((low & length) != 0 && a < b)) {
        keys[low] = b;
        keys[high] = a;
      }
      pthread_barrier_wait(&step);
    }
  return NULL;
}

int main(void) {
  unsigned x = 7;
  int i;
  for (i = 0; i < SIZE; i++) {
    x = x * 1664525 + 1013904223;
    keys[i] = (int)(x >> 20) - 2048;
  }
  pthread_barrier_init(&step, NULL, PAIRS);
  for (i = 0; i < PAIRS; i++)
    pthread_create(&workers[i], NULL, exchange, (void *)(long)i);
  for (i = 0; i < PAIRS; i++)
    pthread_join(workers[i], NULL);
  for (i = 0; i < SIZE; i++)
    printf("%d\n", keys[i]);
  return 0;
}
