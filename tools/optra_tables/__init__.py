"""What tools/lint and tools/tables share: the forms of the tables, how people write their fields, and what a network lets a train do.
Python's standard library alone, and no part of the proved program."""
