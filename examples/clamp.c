#include "analysed.h"

int main(void) {
  long level = input();
  if (level < 0) level = 0;
  if (level > 255) level = 255;
  assert(level >= 0);
  assert(level <= 255);
}
