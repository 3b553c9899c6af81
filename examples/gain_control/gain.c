/* A gain control that closes after eight quiet frames, and opens again faster than it closes.
 *
 * What to look at:
 *
 * - The counter `quiet` never passes 8: `s_min` keeps it there, and its state line says 0..8. So `add(quiet, 1)` is safe,
 *   although it counts in every quiet frame for as long as the codec runs.
 * - The gain stays in 512..4095, and only for that reason `shl(gain, 3)` is safe. With 4096 in place of 4095 the shift
 *   becomes unproved at 4096 3, one above what 16 bits hold.
 * - `level` is the one input, 0 to 32767 by s.toml. The comparisons are `sub`s, and safe because of that range; with
 *   -32768 in it the first one becomes unproved.
 * - samples.bin has twelve frames: two loud ones, nine quiet ones and a loud one. Its counts differ: the two sides of an IF
 *   count differently here, as an ELSE has a weight of its own. The greatest of them is not the bound: no frame of the file
 *   has the longest way.
 */
#include "basic_op.h"
#define QUIET 8
#define THRESHOLD 1000

Word16 level; /* the input: the level of a frame */
Word16 out;
static Word16 quiet;       /* how many frames before this one were quiet, up to 8 */
static Word16 gain = 4095; /* Q12, so nearly 1 */

void frame(void)
{
  IF (sub(level, THRESHOLD) < 0)
  {
    quiet = s_min(add(quiet, 1), QUIET);
    move16();
  }
  ELSE
  {
    quiet = 0;
    move16();
  }

  IF (sub(quiet, QUIET) == 0)
  {
    gain = s_max(sub(gain, 64), 512);
    move16();
  }
  ELSE IF (sub(gain, 4095) < 0)
  {
    gain = s_min(add(gain, 256), 4095);
    move16();
  }

  out = mult(level, shl(gain, 3));
  move16();
}
