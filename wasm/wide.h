/* What clang calls for whole numbers of 128 bits on processors that don't have them. */
#ifndef WIDE_H
#define WIDE_H

typedef __int128 wide;
typedef unsigned __int128 positive_wide;

/* a * b, of which the lower 128 bits are kept. */
wide __multi3(wide a, wide b);

/* a * 2^count, of which the lower 128 bits are kept. The count is 0 to 127, here and below. */
wide __ashlti3(wide a, int count);

/* a / 2^count, rounded down: of a number that is never negative, and of any. */
wide __lshrti3(wide a, int count);
wide __ashrti3(wide a, int count);

/* a / b, rounded towards 0, and the rest. b is not 0. */
positive_wide __udivti3(positive_wide a, positive_wide b);
positive_wide __umodti3(positive_wide a, positive_wide b);
wide __divti3(wide a, wide b);
wide __modti3(wide a, wide b);

#endif
