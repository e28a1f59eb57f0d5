#include "analysed.h"

/* A producer and a consumer: never is more taken than was put. */
int main(void) {
  long put = 0, taken = 0;
  while (input()) {
    if (input()) {
      put = put + 1;
    } else if (taken < put) {
      taken = taken + 1;
    }
  }
  assert(taken <= put);
}
