#include "analysed.h"

/* A lock by tickets (Reed and Kanodia, 1979), for at most twelve waiting: no ticket is served before it is drawn, and
   never more than twelve are out. */
long drawn = 0, served = 0;

int main(void) {
  while (input()) {
    if (input()) {
      if (drawn - served < 12) drawn = drawn + 1;
    } else {
      if (served < drawn) served = served + 1;
    }
  }
  assert(served <= drawn);
  assert(drawn - served <= 12);
}
