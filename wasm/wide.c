/* Whole numbers of 128 bits by halves of 64, so that nothing here calls itself. */
#include "wide.h"

typedef __UINT64_TYPE__ half;

enum { HALF = 64, QUARTER = 32, WHOLE = 128 };

typedef union {
    wide all;
    struct {
        half low, high;
    };
} Halves;

static wide of(half low, half high)
{
    Halves both;
    both.low = low;
    both.high = high;
    return both.all;
}

static const half mask = ((half)1 << QUARTER) - 1;

/* The whole product of two halves, by quarters. */
static Halves product(half a, half b)
{
    half lowest = (a & mask) * (b & mask), middle = (a >> QUARTER) * (b & mask), other = (a & mask) * (b >> QUARTER);
    half carried = (lowest >> QUARTER) + (middle & mask) + (other & mask);
    Halves whole;
    whole.low = (lowest & mask) | carried << QUARTER;
    whole.high = (a >> QUARTER) * (b >> QUARTER) + (middle >> QUARTER) + (other >> QUARTER) + (carried >> QUARTER);
    return whole;
}

wide __multi3(wide a, wide b)
{
    Halves left, right;
    left.all = a;
    right.all = b;
    Halves whole = product(left.low, right.low);
    return of(whole.low, whole.high + left.low * right.high + left.high * right.low);
}

wide __ashlti3(wide a, int count)
{
    Halves from;
    from.all = a;
    if (count == 0)
        return a;
    if (count >= HALF)
        return of(0, from.low << (count - HALF));
    return of(from.low << count, from.high << count | from.low >> (HALF - count));
}

/* Moves a number down; what comes in above is given. */
static wide moved_down(wide a, int count, half above)
{
    Halves from;
    from.all = a;
    if (count == 0)
        return a;
    half low = count < HALF ? from.low : from.high, high = count < HALF ? from.high : above;
    count %= HALF;
    if (count == 0)
        return of(low, high);
    return of(low >> count | high << (HALF - count), high >> count | above << (HALF - count));
}

wide __lshrti3(wide a, int count)
{
    return moved_down(a, count, 0);
}

wide __ashrti3(wide a, int count)
{
    return moved_down(a, count, a < 0 ? ~(half)0 : 0);
}

/* One step of a division by hand: the next quarter comes down to the rest. */
static half next_quarter(half *rest, half quarter, half b)
{
    half from = *rest << QUARTER | quarter;
    *rest = from % b;
    return from / b;
}

/* Divides by a number of one quarter, as nearly all are, and leaves the rest. */
static positive_wide divided_by_quarter(Halves a, half b, positive_wide *rest)
{
    Halves found;
    half left = 0;
    found.high = next_quarter(&left, a.high >> QUARTER, b) << QUARTER;
    found.high |= next_quarter(&left, a.high & mask, b);
    found.low = next_quarter(&left, a.low >> QUARTER, b) << QUARTER;
    found.low |= next_quarter(&left, a.low & mask, b);
    *rest = left;
    return (positive_wide)found.all;
}

/* Divides bit by bit, and leaves the rest. */
static positive_wide divided(positive_wide a, positive_wide b, positive_wide *rest)
{
    Halves from, found;
    from.all = (wide)a;
    if (b <= mask)
        return divided_by_quarter(from, (half)b, rest);
    found.all = 0;
    positive_wide left = 0;
    for (int bit = WHOLE - 1; bit >= 0; bit--) {
        half word = bit < HALF ? from.low : from.high;
        int is_past = (wide)left < 0;
        left += left + (word >> bit % HALF & 1);
        /* A rest past 127 bits has lost its highest one by now, and is more than b then. */
        if (!is_past && left < b)
            continue;
        left -= b;
        if (bit < HALF)
            found.low |= (half)1 << bit;
        else
            found.high |= (half)1 << (bit - HALF);
    }
    *rest = left;
    return (positive_wide)found.all;
}

static positive_wide size_of(wide a)
{
    return a < 0 ? -(positive_wide)a : (positive_wide)a;
}

positive_wide __udivti3(positive_wide a, positive_wide b)
{
    positive_wide rest;
    return divided(a, b, &rest);
}

positive_wide __umodti3(positive_wide a, positive_wide b)
{
    positive_wide rest;
    divided(a, b, &rest);
    return rest;
}

wide __divti3(wide a, wide b)
{
    positive_wide rest, size = divided(size_of(a), size_of(b), &rest);
    return (wide)((a < 0) == (b < 0) ? size : -size);
}

wide __modti3(wide a, wide b)
{
    positive_wide rest;
    divided(size_of(a), size_of(b), &rest);
    return (wide)(a < 0 ? -rest : rest);
}
