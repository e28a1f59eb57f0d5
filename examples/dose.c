#include "analysed.h"

/* A pump that gives doses of 3 up to a wanted amount of at most 100. The last dose may pass 100: at the assertion, going back
   leaves given >= 101 and wanted - given >= -2, so only the amounts 99 and 100 are left, of which 100 fails. Before the loop,
   widening has forgotten that: any amount is left. */
int main(void) {
  long wanted = input();
  assume(wanted >= 0 && wanted <= 100);
  long given = 0;
  while (given < wanted) given = given + 3;
  assert(given <= 100);
}
