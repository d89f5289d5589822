/* A reduction tree: a thread for each node adds up its part; the two inner nodes create the threads of their leaves and join
   them. */
#include <pthread.h>
#include <stdio.h>
#define SIZE 64

pthread_t inner[2];
pthread_t leaves[4];
int values[SIZE];
int parts[4];
int halves[2];

void *leaf(void *arg) {
  int own = (int)(long)arg;
  int i, sum = 0;
  for (i = own * 16; i < own * 16 + 16; i++)
    sum += values[i];
  parts[own] = sum;
  return NULL;
}

void *half(void *arg) {
  int own = (int)(long)arg;
  pthread_create(&leaves[2 * own], NULL, leaf, (void *)(long)(2 * own));
  pthread_create(&leaves[2 * own + 1], NULL, leaf, (void *)(long)(2 * own + 1));
  pthread_join(leaves[2 * own], NULL);
  pthread_join(leaves[2 * own + 1], NULL);
  halves[own] = parts[2 * own] + parts[2 * own + 1];
  return NULL;
}

int main(void) {
  int i;
  for (i = 0; i < SIZE; i++)
    values[i] = i * 3 % 17;
  for (i = 0; i < 2; i++)
    pthread_create(&inner[i], NULL, half, (void *)(long)i);
  for (i = 0; i < 2; i++)
    pthread_join(inner[i], NULL);
  printf("%d + %d = %d\n", halves[0], halves[1], halves[0] + halves[1]);
  return 0;
}
