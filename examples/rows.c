/* The product of two matrices of 8 by 8: each of four threads makes every fourth row. */
#include <pthread.h>
#include <stdio.h>
#define THREADS 4
#define SIZE 8

pthread_t workers[THREADS];
int left[64];
int right[64];
int product[64];

void *multiply(void *arg) {
  int row, column, k, sum;
  for (row = (int)(long)arg; row < SIZE; row += THREADS)
    for (column = 0; column < SIZE; column++) {
      sum = 0;
      for (k = 0; k < SIZE; k++)
        sum += left[row * SIZE + k] * right[k * SIZE + column];
      product[row * SIZE + column] = sum;
    }
  return NULL;
}

int main(void) {
  int i, trace = 0;
  for (i = 0; i < SIZE * SIZE; i++) {
    left[i] = i % 7 - 3;
    right[i] = i % 5 + 1;
  }
  for (i = 0; i < THREADS; i++)
    pthread_create(&workers[i], NULL, multiply, (void *)(long)i);
  for (i = 0; i < THREADS; i++)
    pthread_join(workers[i], NULL);
  for (i = 0; i < SIZE; i++) {
    printf("%d %d %d %d", product[i * SIZE], product[i * SIZE + 1], product[i * SIZE + 2], product[i * SIZE + 3]);
    printf(" %d %d %d %d\n", product[i * SIZE + 4], product[i * SIZE + 5], product[i * SIZE + 6], product[i * SIZE + 7]);
    trace += product[i * SIZE + i];
  }
  printf("trace %d\n", trace);
  return 0;
}
