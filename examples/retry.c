#include "analysed.h"

int main(void) {
  long tries = 0, done = 0;
  while (tries < 5 && done == 0) {
    tries++;
    if (input()) done = 1;
  }
  assert(tries <= 5);
  assert(done >= 0 && done <= 1);
  if (done == 0) assert(tries == 5);
}
