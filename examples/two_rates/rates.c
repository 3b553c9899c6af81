/* A one-pole filter in two rates: frames are narrow or wide, and each rate has a filter of its own.
 *
 * What to look at:
 *
 * - s.toml names two frame functions. Which one a frame calls is an input, `call`, that stands first in the frame: 1 for
 *   `narrow_frame`, 2 for `wide_frame`. Every order of them is proved at once, and each has a bound of its own.
 * - The two filters are objects of one struct, and `filter` gets the one that it works on. Their members have state lines of
 *   their own, `narrow.memory` and `wide.memory`, and they are as different as the frames are.
 * - `shl(sum, 2)` is safe in a narrow frame, where the input was shifted by 4 before. In a wide frame, shifted by 2, it is not.
 *   It is one site, reached in two ways, and the report names the one in which it can fail (`via`): the frame function, and
 *   the call in it.
 * - samples.bin shows that it does fail: its third frame, wide and loud, saturates. The value is then the nearest number of 16
 *   bits and the frame goes on, as on the target.
 */
#include "basic_op.h"

struct Filter
{
  Word16 memory;
  Word16 pole; /* Q15 */
};

Word16 x; /* the input */
Word16 y;
static struct Filter narrow, wide;

void init(void)
{
  narrow.pole = 8192;
  move16();
  wide.pole = 16384;
  move16();
}

static Word16 filter(struct Filter *f, Word16 in)
{
  Word16 sum;

  sum = add(in, mult(f->memory, f->pole));
  f->memory = sum;
  move16();
  return shl(sum, 2);
}

void narrow_frame(void)
{
  y = filter(&narrow, shr(x, 4));
  move16();
}

void wide_frame(void)
{
  y = filter(&wide, shr(x, 2));
  move16();
}
