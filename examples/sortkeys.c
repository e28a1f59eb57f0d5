#include "analysed.h"

/* Bubble sort with its array, after P. Cousot and N. Halbwachs (POPL 1978), as in D. Knuth's book: the keys key[1] to
   key[n] are compared in pairs key[j], key[j + 1], and each index lies inside. bubble.c has the bounds alone. */
int main(void) {
  long key[101], n = input();
  assume(n >= 1 && n <= 100);
  for (long i = 1; i <= n; i++) key[i] = input();
  long bound = n;
  while (bound >= 1) {
    long j = 1, last = 0;
    while (j <= bound - 1) {
      if (key[j] > key[j + 1]) {
        long kept = key[j];
        key[j] = key[j + 1];
        key[j + 1] = kept;
        last = j;
      }
      j = j + 1;
    }
    if (last == 0) return 0;
    bound = last;
  }
}
