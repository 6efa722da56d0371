"""What the circuits in examples/ are to answer: by Python's own libraries, by published vectors, or by a few lines of Python that
say the same in another way.

For each example a function turns values into a title, main's arguments and the result. There is a module for each subject of the
gallery.
"""
