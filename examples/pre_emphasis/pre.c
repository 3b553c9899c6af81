/* A pre-emphasis filter over frames of 40 samples: y[n] = x[n] / 4 - 0.68 x[n - 1] / 4.
 *
 * What to look at:
 *
 * - Every site is safe, for every list of frames. The `sub` is, because both its operands have been made small: x by the
 *   shift, the product by the factor. Put `shr(speech[i], 0)` in its place, and `sub` becomes unproved, with the least
 *   values on which it saturates.
 * - `before` is state: it goes from a frame to the next. Its state line, -8192..8191, is what makes the first turn of a frame
 *   safe.
 * - `bound` is the weighted count of the longest frame (w.toml): one FOR, and 40 times a shr, a sub, a mult and two move16.
 *   `wmops` is that bound as a rate, since frame_us says how long a frame lasts.
 * - samples.bin has two frames: a square wave at full scale, and silence. No site fails in them, and each counts as much as
 *   the bound, since the loop has one way.
 */
#include "basic_op.h"
#define FRAME 40
#define FACTOR 22282 /* 0.68 in Q15 */

Word16 speech[FRAME]; /* the input, by its range in s.toml */
static Word16 out[FRAME];
static Word16 before; /* the last scaled sample of the frame before */

void init(void)
{
  before = 0;
  move16();
}

void frame(void)
{
  Word16 i, x;

  FOR (i = 0; i < FRAME; i++)
  {
    x = shr(speech[i], 2);
    out[i] = sub(x, mult(before, FACTOR));
    move16();
    before = x;
    move16();
  }
}
