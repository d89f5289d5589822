/* The work of examples/accounts.c by main alone. */
#include <stdio.h>
#define CLERKS 3
#define ACCOUNTS 4

long balances[ACCOUNTS] = {1000, 500, 250, 125};

void move(int from, int to, long amount) {
  balances[from] -= amount;
  balances[to] += amount;
}

int main(void) {
  int clerk, i, from;
  long sum = 0;
  for (clerk = 0; clerk < CLERKS; clerk++)
    for (i = 1; i <= 12; i++) {
      from = (clerk + i) % ACCOUNTS;
      move(from, (from + clerk + 1) % ACCOUNTS, 10 * clerk + i);
    }
  for (i = 0; i < ACCOUNTS; i++) {
    printf("%ld\n", balances[i]);
    sum += balances[i];
  }
  printf("%ld in all\n", sum);
  return 0;
}
