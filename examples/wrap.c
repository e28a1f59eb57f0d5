#include "analysed.h"

/* A counter that wraps, in a loop that never ends: the index of a ring of 60 cells. The bound stands in an `if` inside
   the loop, where another branch leaves the index as it is, so that no narrowing brings it back. After the counters of
   Blanchet and others (2003). */
int main(void) {
  long i = 0;
  while (1) {
    if (input()) {
      assert(i >= 0 && i <= 59);
      i = i + 1;
      if (i >= 60) i = 0;
    }
  }
}
