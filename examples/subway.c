#include "analysed.h"

/* The regulation of a subway, after N. Halbwachs, Y.-E. Proy and P. Roumanoff, Verification of real-time systems using
   linear relation analysis (1997): a train counts beacons along the track and seconds of a clock. Ten beacons ahead it is
   early and brakes, ten behind it is late and its clock waits; a braking train passes at most nine more beacons. */
int main(void) {
  long beacons = 0, seconds = 0;
  while (input()) {
    if (input()) {
      /* on time */
      while (input() && beacons - seconds <= 9 && seconds - beacons <= 9) {
        if (input()) beacons = beacons + 1;
        else seconds = seconds + 1;
      }
    }
    if (beacons - seconds >= 10) {
      long more = 0;
      while (input() && beacons - seconds >= 1) {
        if (input() && more <= 8) {
          beacons = beacons + 1;
          more = more + 1;
        } else seconds = seconds + 1;
      }
      assume(beacons == seconds);
    } else if (seconds - beacons >= 10) {
      while (input() && seconds - beacons >= 1) beacons = beacons + 1;
      assume(beacons == seconds);
    }
    assert(beacons - seconds <= 19 && seconds - beacons <= 10);
  }
}
