#include "analysed.h"

/* The first program of P. Cousot and N. Halbwachs, Automatic discovery of linear restraints among variables of a program
   (POPL 1978): no single variable tells that i stays two ahead of 2j. */
int main(void) {
  long i = 2, j = 0;
  while (input())
    if (input()) i = i + 4;
    else {
      j = j + 1;
      i = i + 2;
    }
  assert(i - 2 * j >= 2 && j >= 0);
}
