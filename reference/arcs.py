"""Arcs: a direction is turned by equal steps, in one of two senses, until another direction is passed.

A sense is 1 for counterclockwise and -1 for clockwise. Options are a greatest step in bits, and a precision."""
from plane import cross, cut, dot, sine_and_cosine

def arc(width, options, start, end, sense):
    """The directions between two. There is none where the end is within a greatest step of the start. Else up to 1536
    steps are taken, as long as each goes on, by no more than a greatest step, and does not pass the end.
    The greatest step counts as a turn over 1024 at least and an eighth of one at most, the precision as 4 to 32. A step
    is a part less than the greatest one, by the precision, and a little more, since rotations are cut."""
    greatest, precision = min(max(options[0], 1 << 22), 1 << 29), min(max(options[1], 4), 32)
    sine, cosine = sine_and_cosine(((greatest - (1 << 33) // width.unit) << precision) // ((1 << precision) + 1))
    greatest_sine, greatest_cosine = sine_and_cosine(greatest)

    def is_within(v, w):
        ahead = sense * cross(v, w)
        return ahead >= 0 and dot(v, w) > 0 and ahead * greatest_cosine <= dot(v, w) * greatest_sine
    directions, last = [], start
    while not is_within(start, end) and len(directions) < 1536:
        onward = (cut(cosine * last[0] - sense * sine * last[1], 1 << 30),
                  cut(sense * sine * last[0] + cosine * last[1], 1 << 30))
        is_good = is_within(last, onward) and sense * cross(last, onward) > 0
        is_passed = sense * cross(last, end) >= 0 and dot(last, end) >= 0 and sense * cross(onward, end) <= 0
        if is_passed or not is_good:
            break
        directions.append(onward)
        last = onward
    return directions
