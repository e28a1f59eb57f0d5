#include "../analysed.h"

/* Peterson's lock (1981) for two threads. The ranges of the flags and of the turn are proved. That both threads are
   never inside together holds where each statement is a step, but it is a relation between the flags, the turn and
   where both threads stand: boxes can't say it, and it stays unknown. In C these variables have to be atomic ones. */
long wants1 = 0, wants2 = 0, turn = 1, inside1 = 0, inside2 = 0;

void t1(void) {
  while (input()) {
    wants1 = 1;
    turn = 2;
    while (wants2 == 1 && turn == 2) {}
    inside1 = 1;
    assert(inside2 == 0);
    inside1 = 0;
    wants1 = 0;
    assert(wants2 >= 0 && wants2 <= 1 && turn >= 1 && turn <= 2);
  }
}

void t2(void) {
  while (input()) {
    wants2 = 1;
    turn = 1;
    while (wants1 == 1 && turn == 1) {}
    inside2 = 1;
    assert(inside1 == 0);
    inside2 = 0;
    wants2 = 0;
    assert(wants1 >= 0 && wants1 <= 1 && turn >= 1 && turn <= 2);
  }
}
