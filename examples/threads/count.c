#include "../analysed.h"

/* A producer and a consumer of a buffer with eight places, of which only the count is here. Each tests the count and
   then steps it, in two statements, so the other may run between them. The producer alone steps up: from a count that
   it has tested, at most 7, to 8 at most, whatever the consumer takes meanwhile. The consumer alone steps down. */
long count = 0;

void t1(void) {
  while (input()) {
    if (count < 8) count = count + 1;
    assert(count >= 0 && count <= 8);
  }
}

void t2(void) {
  while (input()) {
    long seen = count;
    assert(seen >= 0 && seen <= 8);
    if (count > 0) count = count - 1;
    assert(count >= 0 && count <= 8);
  }
}
