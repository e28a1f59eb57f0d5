#include "analysed.h"

/* Heap sort's index bounds, after P. Cousot and N. Halbwachs (POPL 1978): the keys are T[1] to T[n]; each comparison's
   outcome is an input, each index is asserted in place of a use. Half of n is rounded down. */
int main(void) {
  long n = input();
  assume(n >= 2);
  long half = n / 2;
  long left = half + 1, right = n;
  if (left >= 2) {
    left = left - 1;
    assert(1 <= left && left <= n);
  } else {
    assert(1 <= right && right <= n);
    right = right - 1;
  }
  while (right >= 2) {
    long i = left, j = 2 * left;
    while (j <= right) {
      assert(1 <= j && j <= n);
      if (j <= right - 1) {
        assert(j + 1 <= n);
        if (input()) j = j + 1;
      }
      assert(1 <= j && j <= n);
      if (input()) break;
      assert(1 <= i && i <= n);
      i = j;
      j = 2 * j;
    }
    assert(1 <= i && i <= n);
    if (left >= 2) {
      left = left - 1;
      assert(1 <= left && left <= n);
    } else {
      assert(1 <= right && right <= n);
      right = right - 1;
    }
  }
}
