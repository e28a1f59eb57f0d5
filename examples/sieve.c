#include "analysed.h"

/* The primes up to 99, by Eratosthenes' sieve: what is struck is a multiple of a smaller number. */
int struck[100];

int main(void) {
  int primes = 0;
  for (int number = 2; number < 100; number++)
    if (struck[number] == 0) {
      primes++;
      for (int multiple = 2 * number; multiple < 100; multiple += number) struck[multiple] = 1;
    }
}
