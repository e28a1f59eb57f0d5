#include "analysed.h"

/* A traffic light: red for 60 seconds, green for 45, yellow for 5. Three parts keep the three phases apart; the loop is
   joined for three rounds, so that all phases have come before it would be widened. */
int main(void) {
  long phase = 0, seconds = 60;
  while (input()) {
    if (phase == 0) {
      phase = 1;
      seconds = 45;
    } else if (phase == 1) {
      phase = 2;
      seconds = 5;
    } else {
      phase = 0;
      seconds = 60;
    }
    assert(seconds == 60 || seconds == 45 || seconds == 5);
  }
  assert(phase != 1 || seconds == 45);
}
