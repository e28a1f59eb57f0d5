#include "analysed.h"

/* Bubble sort's index bounds, after P. Cousot and N. Halbwachs (POPL 1978), as in D. Knuth's book: the keys K[1] to K[n]
   are compared in pairs K[j], K[j + 1]; each comparison's outcome is an input, each index is asserted in place of a use. */
int main(void) {
  long n = input();
  assume(n >= 1);
  long bound = n;
  while (bound >= 1) {
    long j = 1, last = 0;
    while (j <= bound - 1) {
      assert(1 <= j && j + 1 <= n);
      if (input()) last = j;
      j = j + 1;
    }
    if (last == 0) return 0;
    bound = last;
  }
}
