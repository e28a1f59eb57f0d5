#include "analysed.h"

/* A gas burner, after the duration calculus of Z. Chaochen, C. Hoare and A. Ravn (1991) and the linear relation analysis of
   hybrid systems by N. Halbwachs, Y.-E. Proy and P. Raymond (1994), in whole seconds: a leak is stopped within a second, and
   30 seconds pass before the next one. After a minute it has leaked for at most a twentieth of the time. */
int main(void) {
  long time = 0, leaked = 0;
  while (input()) {
    /* a leak of at most one second */
    if (input()) {
      time = time + 1;
      leaked = leaked + 1;
    }
    /* no leak for 30 seconds or more */
    long quiet = input();
    assume(quiet >= 30);
    time = time + quiet;
  }
  assert(time >= 30 * leaked);
  if (time >= 60) assert(20 * leaked <= time);
}
