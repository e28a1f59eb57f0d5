#include "analysed.h"

int main(void) {
  long fill = 0;
  while (input()) {
    if (input()) {
      if (fill < 16) fill++;
    } else {
      if (fill > 0) fill--;
    }
    assert(fill >= 0);
    assert(fill <= 16);
  }
}
