"""Which paths of a drawing hang together: those whose boxes touch, and those that touch them, and so on."""


def boxes_of(paths, padding):
    """For each path the box of all that is drawn of it: least x and y, greatest x and y; nothing for an empty path."""
    boxes = []
    for path in paths:
        columns = list(zip(*(vertex[:2] for vertex in path)))
        boxes.append(
            (min(columns[0]) - padding, min(columns[1]) - padding, max(columns[0]) + padding, max(columns[1]) + padding)
            if path
            else None
        )
    return boxes


class Groups:
    """Numbers that are put together, each found by one of its group."""

    def __init__(self, count):
        self.above = list(range(count))

    def first(self, number):
        """The number by which a group is found."""
        while self.above[number] != number:
            self.above[number] = self.above[self.above[number]]
            number = self.above[number]
        return number

    def join(self, one, other):
        """Puts two groups together; the lesser number finds both."""
        one, other = self.first(one), self.first(other)
        self.above[max(one, other)] = min(one, other)


def components(paths, padding):
    """The numbers of the paths of each component, in order, the components by their first path.

    A path without points draws nothing, and stands alone.
    """
    boxes = boxes_of(paths, padding)
    groups = Groups(len(paths))
    order = sorted((number for number, box in enumerate(boxes) if box), key=lambda number: boxes[number])
    open_boxes = []
    for number in order:
        left, low, _, high = boxes[number]
        open_boxes = [other for other in open_boxes if boxes[other][2] >= left]
        for other in open_boxes:
            if boxes[other][1] <= high and boxes[other][3] >= low:
                groups.join(number, other)
        open_boxes.append(number)
    found = {}
    for number in range(len(paths)):
        found.setdefault(groups.first(number), []).append(number)
    return list(found.values())
