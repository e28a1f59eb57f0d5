#include "analysed.h"

/* The car of N. Halbwachs, Y.-E. Proy and P. Roumanoff, Verification of real-time systems using linear relation analysis
   (1997), with its seconds as rounds of a loop: within each second it drives at most 2 metres. Then the time bounds the
   distance, and 10 metres take at least 5 seconds. */
int main(void) {
  long time = 0, distance = 0;
  while (input()) {
    long speed = 0;
    while (speed <= 1 && input()) {
      speed = speed + 1;
      distance = distance + 1;
    }
    time = time + 1;
  }
  assert(distance <= 2 * time);
  if (distance >= 10) assert(time >= 5);
}
