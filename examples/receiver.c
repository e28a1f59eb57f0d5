#include "analysed.h"

/* A receiver of frames: the byte 126, how many bytes follow, at most 64, and then these. A frame without a byte is
   whole at once. */
int main(void) {
  int state = 0; /* 0: waits for 126; 1: for the length; 2: for the bytes */
  int left = 0;  /* how many bytes of the frame are still to come */
  while (input()) {
    long byte = input();
    assume(byte >= 0 && byte <= 255);
    switch (state) {
      case 0:
        if (byte == 126) state = 1;
        continue;
      case 1:
        if (byte > 64) {
          state = 0;
          continue;
        }
        left = byte + 1; /* the length is a byte of the frame, too */
        state = 2;
        /* falls through */
      default:
        left = left - 1;
        if (left <= 0) state = 0;
    }
    assert(left >= 0 && left <= 64);
  }
  assert(left >= 0);
}
