/* Four bank accounts, each with a mutex of its own: three clerks move money between them. Who moves money holds the mutexes of
   both accounts, and takes the one with the lower number first, so that no two clerks wait for each other. Whatever their
   order, nothing is lost. */
#include <pthread.h>
#include <stdio.h>
#define CLERKS 3
#define ACCOUNTS 4

pthread_t clerks[CLERKS];
pthread_mutex_t guards[ACCOUNTS];
long balances[ACCOUNTS] = {1000, 500, 250, 125};

void move(int from, int to, long amount) {
  int low = from, high = to;
  if (from > to) {
    low = to;
    high = from;
  }
  pthread_mutex_lock(&guards[low]);
  pthread_mutex_lock(&guards[high]);
  balances[from] -= amount;
  balances[to] += amount;
  pthread_mutex_unlock(&guards[high]);
  pthread_mutex_unlock(&guards[low]);
}

void *work(void *arg) {
  int clerk = (int)(long)arg;
  int i, from;
  for (i = 1; i <= 12; i++) {
    from = (clerk + i) % ACCOUNTS;
    move(from, (from + clerk + 1) % ACCOUNTS, 10 * clerk + i);
  }
  return NULL;
}

int main(void) {
  int i;
  long sum = 0;
  for (i = 0; i < ACCOUNTS; i++)
    pthread_mutex_init(&guards[i], NULL);
  for (i = 0; i < CLERKS; i++)
    pthread_create(&clerks[i], NULL, work, (void *)(long)i);
  for (i = 0; i < CLERKS; i++)
    pthread_join(clerks[i], NULL);
  for (i = 0; i < ACCOUNTS; i++) {
    pthread_mutex_destroy(&guards[i]);
    printf("%ld\n", balances[i]);
    sum += balances[i];
  }
  printf("%ld in all\n", sum);
  return 0;
}
