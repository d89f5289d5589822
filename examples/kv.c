/* A hash table with open addressing: its slots are in four stripes with a mutex each, and three threads add to it. */
#include <pthread.h>
#include <stdio.h>

#define SLOTS 64
#define STRIPES 4
#define WORKERS 3
#define OPS 24

static unsigned key[SLOTS], val[SLOTS];
pthread_t t[WORKERS];
static pthread_mutex_t lock[STRIPES];

static unsigned hash(unsigned k) { k ^= k >> 16; k *= 0x7feb352du; k ^= k >> 15; return k; }

static int find(unsigned k) {
  unsigned h = hash(k);
  h = h % SLOTS;
  while (key[h] != 0 && key[h] != k)
    h = (h + STRIPES) % SLOTS;
  return h;
}

void *worker(void *arg) {
  long id = (long)arg;
  for (int n = 0; n < OPS; n++) {
    unsigned k = 1 + (n * 7 + id * 3) % 40;
    unsigned s = hash(k);
    s = s % STRIPES;
    pthread_mutex_lock(&lock[s]);
    int i = find(k);
    key[i] = k;
    val[i] += n;
    pthread_mutex_unlock(&lock[s]);
  }
  return 0;
}

int main(void) {
  for (int i = 0; i < STRIPES; i++) pthread_mutex_init(&lock[i], NULL);
  for (long i = 0; i < WORKERS; i++) pthread_create(&t[i], NULL, worker, (void *)i);
  for (int i = 0; i < WORKERS; i++) pthread_join(t[i], NULL);
  unsigned used = 0, total = 0;
  for (int i = 0; i < SLOTS; i++) { used += key[i] != 0; total += val[i]; }
  printf("%u keys, total %u\n", used, total);
  return 0;
}
