#include "analysed.h"

/* A bounded buffer of twelve places (Dijkstra, 1965): who finds it full doesn't put, who finds it empty doesn't take. */
int main(void) {
  long held = 0;
  while (input()) {
    if (input()) {
      if (held < 12) held = held + 1;
    } else {
      if (held > 0) held = held - 1;
    }
  }
  assert(held >= 0 && held <= 12);
}
