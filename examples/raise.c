#include "analysed.h"

/* A level is raised by tens, and no more where it has come to 90: so no run sounds the alarm. */
long raised(long level) {
  if (level >= 90) return level;
  return level + 10;
}

int main(void) {
  long level = 0;
  while (input()) {
    level = raised(level);
    if (level > 99) assert(0);
  }
  assert(0 <= level && level <= 99);
}
