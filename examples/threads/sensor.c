#include "../analysed.h"

/* A sensor, a filter and a watchdog. The sensor writes the latest sample, of ten bits, and sets the watchdog back. The
   filter follows the sample: up by a step in each round, down at once. It keeps the sample that it compares in a local
   variable: read twice, the sample could be another one. The watchdog counts its own rounds since the last sample. */
long sample = 0, level = 0, ticks = 0;

void t1(void) {
  while (1) {
    long read = input();
    if (read >= 0 && read <= 1023) {
      sample = read;
      ticks = 0;
    }
  }
}

void t2(void) {
  while (1) {
    long seen = sample;
    if (level < seen) level = level + 1;
    else level = seen;
    assert(level >= 0 && level <= 1023);
  }
}

void t3(void) {
  while (1) {
    if (ticks < 100) ticks = ticks + 1;
    assert(ticks >= 0 && ticks <= 100);
  }
}
