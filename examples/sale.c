#include "analysed.h"

/* A sale: who pays at least the price gets the rest back as a discount on the next one, less a fee of 5. Can that be below 0?
   Going back tells exactly from which prices: those that are paid with at most 4 to spare. */
int main(void) {
  long price = input(), paid = input();
  assume(price >= 0 && price <= 1000 && paid >= 0 && paid <= 1000);
  long discount = 0;
  if (paid >= price) {
    long fee = 5;
    discount = paid - price;
    discount = discount - fee;
  }
  assert(discount >= 0);
}
