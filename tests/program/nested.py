"""Rings told by even-odd, but for a unit, worked by these tests from the rules alone: whatever their directions, a ring that an
odd number of the others hold is interior, and stands behind the least of these; any other one is exterior."""


class Crossing(Exception):
    """Two rings cross by more than rounding explains."""


def edges(ring):
    """From the last point to the first, then on."""
    return list(zip(ring[-1:] + ring[:-1], ring))


def area(ring):
    return sum(a[0] * b[1] - b[0] * a[1] for a, b in edges(ring))


def turned(ring):
    return ring[:1] + ring[:0:-1]


def halves(ring):
    return [(2 * x, 2 * y) for x, y in ring]


def where(ring, point):
    """0 on an edge, 1 inside, -1 outside: the edges that a ray to greater x crosses make an odd number."""
    x, y = point
    inside = False
    for (ax, ay), (bx, by) in edges(ring):
        side = (bx - ax) * (y - ay) - (by - ay) * (x - ax)
        if side == 0 and min(ax, bx) <= x <= max(ax, bx) and min(ay, by) <= y <= max(ay, by):
            return 0
        if (ay > y) != (by > y) and (side > 0) == (by > ay):
            inside = not inside
    return 1 if inside else -1


def marks(ring):
    """A ring's points and the middles of its edges, in halves of a unit."""
    return halves(ring) + [(a[0] + b[0], a[1] + b[1]) for a, b in edges(ring)]


def all_near(outer, ring, side):
    """Whether each mark of a ring, or a spot a unit from it, is on this side of another ring, or on its edge."""
    return all(
        any(where(outer, (x + i, y + j)) != -side for i in (0, -2, 2) for j in (0, -2, 2)) for x, y in marks(ring)
    )


def is_narrow(ring):
    """Rounding can make it, or turn it."""
    return abs(area(ring)) <= 2 * sum(max(abs(b[0] - a[0]), abs(b[1] - a[1])) for a, b in edges(ring))


def meet(outer, ring):
    return all(min(a) <= max(b) and min(b) <= max(a) for a, b in zip(zip(*outer), zip(*ring)))


def holds(outer, ring):
    """Whether a larger ring holds another."""
    if not meet(outer, ring):
        return False
    doubled = halves(outer)
    if is_narrow(ring):
        return sum(where(doubled, mark) for mark in marks(ring)) > 0
    inside, outside = all_near(doubled, ring, 1), all_near(doubled, ring, -1)
    if inside and outside and (area(outer) < 0) != (area(ring) < 0):
        return True
    if inside == outside:
        raise Crossing
    return inside


def holders_of(rings):
    """Of each ring with area those that hold it, from the least to the largest."""
    solid = sorted(
        (index for index, ring in enumerate(rings) if area(ring)), key=lambda it: (abs(area(rings[it])), -it)
    )
    found = {
        it: [other for other in solid[place + 1 :] if holds(rings[other], rings[it])] for place, it in enumerate(solid)
    }
    for others in found.values():
        if others and len(found[others[0]]) + 1 != len(others):
            raise Crossing
    return found


def told(rings):
    """The rings, each with its index, exteriors in their order and each behind its own."""
    held, homes = holders_of(rings), []
    for index in range(len(rings)):
        if index not in held:
            homes.append(homes[-1] if homes else 0)
        else:
            homes.append(held[index][0] if len(held[index]) % 2 else index)
    made = []
    for index, ring in enumerate(rings):
        if homes[index] == index:
            made.append((index, turned(ring) if area(ring) < 0 else ring))
            own = [it for it, home in enumerate(homes) if home == index != it]
            made += [(it, turned(rings[it]) if area(rings[it]) > 0 else rings[it]) for it in own]
    return made
