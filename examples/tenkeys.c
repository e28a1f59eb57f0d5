#include "analysed.h"

/* Bubble sort of ten keys. That bound stays below ten is known by what last and bound have to do with each other: over
   octagons each index lies inside. Over polyhedra and boxes the outer loop's head forgets bound <= 9, since last grows
   in the inner loop; with `assume(bound <= 9);` as the outer loop's first statement, which no run fails, boxes show
   them all, too. */
int main(void) {
  long key[10];
  for (long i = 0; i < 10; i++) key[i] = input();
  long bound = 9;
  while (bound >= 1) {
    long j = 0, last = 0;
    while (j < bound) {
      if (key[j] > key[j + 1]) {
        long kept = key[j];
        key[j] = key[j + 1];
        key[j + 1] = kept;
        last = j;
      }
      j = j + 1;
    }
    bound = last;
  }
}
