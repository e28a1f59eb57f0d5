#include "analysed.h"

int main(void) {
  long count = 0;
  while (input()) {
    if (count < 255) count++;
    assert(count <= 255);
  }
  assert(count >= 0);
}
