#include "analysed.h"

/* A message of n bytes is copied in pieces. */
int main(void) {
  long n = input();
  assume(n >= 0);
  long done = 0, left = n;
  while (left > 0) {
    long piece = input();
    assume(piece >= 1 && piece <= left);
    done = done + piece;
    left = left - piece;
  }
  assert(done == n);
}
