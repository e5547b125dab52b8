"""Crossings of routes whose pieces run in any direction.

Two routes cross where the one passes from one side of the other to its other side: inside a piece of each, at a bend of the one
inside a piece of the other, or at a bend of both. Where they share a piece, or an end, they don't.
"""

SCALE = 100
STRAIGHT = 5


def crossings(routes):
    """How often two different routes cross. Coordinates count in hundredths, so every test is exact."""
    pieces = []
    for number, route in enumerate(routes):
        points = whole(route)
        for at in range(len(points) - 1):
            after = points[at + 2] if at + 2 < len(points) else None
            pieces.append((number, points[at], points[at + 1], after))
    pieces.sort(key=lambda it: min(it[1][0], it[2][0]))
    count, active = 0, []
    for piece in pieces:
        number, (ax, ay), (bx, by), _ = piece
        left, top, bottom = min(ax, bx), min(ay, by), max(ay, by)
        active = [it for it in active if it[0] >= left]
        for _, low, high, other in active:
            if low <= bottom and top <= high and other[0] != number:
                count += meets(piece, other)
        active.append((max(ax, bx), top, bottom, piece))
    return count


def whole(route):
    """The points in hundredths, without those that repeat one or lie straight between two."""
    kept = []
    for point in ((round(x * SCALE), round(y * SCALE)) for x, y in route):
        if kept and near(kept[-1], point):
            continue
        if len(kept) >= 2 and is_straight(kept[-2], kept[-1], point):
            kept.pop()
        kept.append(point)
    return kept


def near(one, other):
    return abs(one[0] - other[0]) < STRAIGHT and abs(one[1] - other[1]) < STRAIGHT


def is_straight(first, middle, last):
    """Whether a point lies between two others, within some hundredths."""
    across, down = last[0] - first[0], last[1] - first[1]
    square = across * across + down * down
    along = (middle[0] - first[0]) * across + (middle[1] - first[1]) * down
    return turn(first, last, middle) ** 2 <= STRAIGHT * STRAIGHT * square and 0 <= along <= square


def turn(a, b, c):
    """Above 0 where c is to the one side of the line from a to b, below 0 to the other, 0 on it."""
    return (b[0] - a[0]) * (c[1] - a[1]) - (b[1] - a[1]) * (c[0] - a[0])


def meets(one, other):
    """1 if the pieces cross, or if their routes cross in the bend at the end of one of them or of both."""
    _, a, b, after = one
    _, c, d, beyond = other
    c_side, d_side = turn(a, b, c), turn(a, b, d)
    if c_side > 0 < d_side or c_side < 0 > d_side:
        return 0
    a_side, b_side = turn(c, d, a), turn(c, d, b)
    if a_side > 0 < b_side or a_side < 0 > b_side or c_side == d_side == 0:
        return 0
    if c_side and d_side and a_side and b_side:
        return 1
    if b == d and after and beyond:
        return alternate(b, a, after, c, beyond)
    if b_side == 0 and after and c_side and d_side:
        return differ(a_side, turn(c, d, after))
    if d_side == 0 and beyond and a_side and b_side:
        return differ(c_side, turn(a, b, beyond))
    return 0


def differ(one, other):
    return int(one > 0 > other or one < 0 < other)


def alternate(bend, a, b, c, d):
    """Whether the arms to c and d leave a bend on different sides of the way from a over the bend to b."""
    arms = (a, b), (c, d)
    if any(turn(bend, one, other) == 0 for one in arms[0] for other in arms[1]):
        return 0
    return int(is_within(bend, a, b, c) != is_within(bend, a, b, d))


def is_within(bend, a, b, point):
    """Whether an arm lies in the angle that opens from the arm to a, turning positively, to the arm to b."""
    if turn(bend, a, b) > 0:
        return turn(bend, a, point) > 0 and turn(bend, point, b) > 0
    return turn(bend, a, point) > 0 or turn(bend, point, b) > 0
