#include "analysed.h"

int main(void) {
  long number = input(), size;
  if (number < 0) size = -number;
  else size = number;
  assert(size >= 0);
}
