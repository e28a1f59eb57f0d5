#include "analysed.h"

/* Two queues in series (J. R. Jackson, Networks of waiting lines, 1957): what leaves the first enters the second. */
int main(void) {
  long first = 0, second = 0, entered = 0, left = 0;
  while (input()) {
    if (input()) {
      entered = entered + 1;
      first = first + 1;
    } else if (input()) {
      if (first >= 1) {
        first = first - 1;
        second = second + 1;
      }
    } else if (second >= 1) {
      second = second - 1;
      left = left + 1;
    }
    assert(first >= 0 && second >= 0);
    assert(entered == first + second + left);
    assert(left <= entered);
  }
}
