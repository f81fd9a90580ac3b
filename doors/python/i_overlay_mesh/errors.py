"""What can go wrong with a drawing."""


class DrawingError(ValueError):
    """The input or an argument is invalid. Nothing was drawn.

    where: the part that is invalid, such as 'polygon 2, ring 0, point 5', counted from 0.
    rule: what is wrong with it, in words.
    """

    def __init__(self, where: str, rule: str) -> None:
        super().__init__(f"{where}: {rule}" if where else rule)
        self.where = where
        self.rule = rule


class GridRangeError(DrawingError):
    """With the given scale and origin, the drawing would leave the range of the grid."""


class TooManySplits(DrawingError):
    """The drawing takes more splits than `most_splits`."""


class LibraryMissing(ImportError):
    """The compiled library was not found."""


class UnprovedWarning(UserWarning):
    """The library was built without its proof, by `doors/build --unproved`. If a check fails, it stops the process."""
