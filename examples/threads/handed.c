#include "../analysed.h"

/* A buffer of eight places. One thread fills a place and hands its index over; -1 says that nothing is handed over, and
   it may take an index back. The other reads the place in three ways. */
long buffer[8];
long ready = -1;

void t1(void) {
  long next = 0;
  while (1) {
    buffer[next] = input();
    ready = next;
    next = next + 1;
    if (next >= 8) next = 0;
    if (input()) ready = -1;
  }
}

void t2(void) {
  long total = 0;
  while (1) {
    /* In bounds: the index is kept in a local variable, which no other thread changes. */
    long own = ready;
    if (own >= 0) total = buffer[own];
    /* Unknown, and rightly: between the test and the statement that uses the index it may be taken back. */
    if (ready >= 0) total = buffer[ready];
    /* In bounds, since a statement is one step here. A machine reads `ready` twice: do not write it so. */
    if (ready >= 0 && buffer[ready] > total) total = 0;
  }
}
