/* Packets in two streams of bytes, taken apart by a state machine: a thread for each stream, and a mutex round the
   counts. A packet begins with a flag, has a kind, a length, so many bytes and the low byte of the sum of all these.
   An escape before a byte says that its bit 5 is turned, so no flag stands within a packet. */
#include <pthread.h>
#include <stdio.h>
#define STREAMS 2
#define BYTES 160
#define PACKETS 9
#define FLAG 126
#define ESCAPE 125
#define LONGEST 12

#define OUTSIDE 0
#define KIND 1
#define LENGTH 2
#define DATA 3
#define SUM 4

unsigned char stream[STREAMS][BYTES];
int ends[STREAMS];
pthread_t threads[STREAMS];
pthread_mutex_t lock = PTHREAD_MUTEX_INITIALIZER;
int good, broken, cut;
/* of each kind how many packets there are, and the sum of their bytes */
int kinds[4][2];

/* what became of a packet: 0 good, whose bytes have this sum, 1 broken, 2 cut off */
static void count(int outcome, int kind, int sum) {
  pthread_mutex_lock(&lock);
  switch (outcome) {
  case 0:
    kinds[kind & 3][0]++;
    kinds[kind & 3][1] += sum;
    good++;
    break;
  case 1:
    broken++;
    break;
  default:
    cut++;
  }
  pthread_mutex_unlock(&lock);
}

void *parse(void *arg) {
  const int s = (int)(long)arg;
  int state = OUTSIDE, is_escaped = 0, kind = 0, left = 0, sum = 0;
  for (int i = 0; i < ends[s]; i++) {
    int byte = stream[s][i];
    switch (byte) {
    case FLAG:
      if (state != OUTSIDE) count(2, 0, 0);
      state = KIND;
      sum = 0;
      is_escaped = 0;
      continue;
    case ESCAPE:
      is_escaped = 1;
      continue;
    default:
      byte = is_escaped ? byte ^ 32 : byte;
      is_escaped = 0;
    }
    switch (state) {
    case OUTSIDE:
      break;
    case KIND:
      kind = byte;
      state = LENGTH;
      sum += byte;
      break;
    case LENGTH:
      left = byte;
      state = left == 0 ? SUM : left > LONGEST ? OUTSIDE : DATA;
      if (state == OUTSIDE) count(1, 0, 0);
      sum += byte;
      break;
    case DATA:
      sum += byte;
      left--;
      state = left == 0 ? SUM : DATA;
      break;
    case SUM:
      count((sum & 255) != byte, kind, sum);
      state = OUTSIDE;
    }
  }
  if (state != OUTSIDE) count(2, 0, 0);
  return NULL;
}

/* writes a byte, and an escape before it where it needs one */
static int put(int s, int at, int byte) {
  int is_special = byte == FLAG || byte == ESCAPE;
  stream[s][at] = is_special ? ESCAPE : byte;
  if (is_special) stream[s][at + 1] = byte ^ 32;
  return at + 1 + is_special;
}

int main(void) {
  unsigned x = 5;
  for (int s = 0; s < STREAMS; s++) {
    int at = 0;
    for (int p = 0; p < PACKETS; p++) {
      int length, sum;
      x = x * 1664525 + 1013904223;
      /* each sixth packet tells too great a length, and each fifth a wrong sum */
      length = p % 6 == 4 ? 99 : (int)(x >> 28) % 9;
      sum = p % 4 + length + (p % 5 == 3);
      stream[s][at] = FLAG;
      at = put(s, put(s, at + 1, p % 4), length);
      for (int i = 0; i < (length > LONGEST ? 3 : length); i++) {
        int byte = ((int)(x >> 9) + i) & 127;
        sum += byte;
        at = put(s, at, byte);
      }
      /* the seventh has no sum */
      if (p != 6) at = put(s, at, sum & 255);
    }
    ends[s] = at;
  }
  for (int s = 0; s < STREAMS; s++)
    pthread_create(&threads[s], NULL, parse, (void *)(long)s);
  for (int s = 0; s < STREAMS; s++)
    pthread_join(threads[s], NULL);
  printf("good %d broken %d cut %d\n", good, broken, cut);
  for (int k = 0; k < 4; k++)
    printf("kind %d: %d packets, sum %d\n", k, kinds[k][0], kinds[k][1]);
  return 0;
}
