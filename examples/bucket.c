#include "analysed.h"

/* The leaky bucket (J. Turner, New directions in communications, 1986): a cell is let in where the bucket has room, and each
   second one leaks out of a bucket that isn't empty. What was let in is bounded by the time and the capacity. */
int main(void) {
  long capacity = input();
  assume(capacity >= 1);
  long level = 0, passed = 0, leaked = 0, time = 0;
  while (input()) {
    if (input()) {
      assume(level <= capacity - 1);
      level = level + 1;
      passed = passed + 1;
    } else {
      time = time + 1;
      if (level >= 1) {
        level = level - 1;
        leaked = leaked + 1;
      }
    }
    assert(0 <= level && level <= capacity);
    assert(passed == level + leaked && leaked <= time);
    assert(passed <= capacity + time);
  }
}
