"""What can go wrong: a fault of the test's own, a form that is not understood, and a value that vstd leaves open."""


class Fault(Exception):
    pass


class NotUnderstood(Fault):
    """A form of vstd's text or of a restated definition that this test cannot read or evaluate. Nothing is passed over."""

    def __init__(self, file, line, form):
        super().__init__("%s, line %s: not understood: %s" % (file, line, form))


class LeftOpen(Exception):
    """What vstd's logic gives no value for: an element past the end, a cast that does not fit, a division by 0, a function outside of its `when`."""
