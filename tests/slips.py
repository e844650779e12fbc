"""Slips by name: references with one deliberate fault each.

A comparison that does not tell such a reference from the sound one tests too
little. terms_slips.py, orders_slips.py and sheet_slips.py each have a
Registry over the class of their reference.
"""


class Registry(dict):
    """The slips of a base class, by name, in the order in which they are written."""

    def __init__(self, base):
        super().__init__()
        self.base = base

    def slip(self, how):
        """Takes in a class of the base, under its own name."""
        self[how.__name__] = how
        return how

    def constant(self, name, **values):
        """A class of the base with other constants, or methods."""
        self[name] = type(name, (self.base,), values)
