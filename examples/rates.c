#include "analysed.h"

/* A tank is filled at one of two rates until it holds 100, and then kept (after Halbwachs, Proy and Roumanoff, 1997). */
int main(void) {
  long level = 0;
  while (input()) {
    if (level < 100) {
      if (input())
        level = level + 1;
      else
        level = level + 2;
    }
  }
  assert(level >= 0 && level <= 101);
}
