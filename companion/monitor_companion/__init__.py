"""What lies before and behind the proved program `monitor`: imports, checks, exports and pages.

Numbers that go into a recording, or that are compared, are exact (`decimal`, `fractions`, whole
numbers), never floats. What can't be read surely is refused with its place.
"""

__version__ = "0.1.0"
