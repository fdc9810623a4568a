"""The most that the program reads and plans."""

MOST_BYTES = 536_870_912
"""The most bytes of a file."""

MOST_TRIPS = 4_096
"""The most trips of a day."""

MOST_PLACES = 512
"""The most places, of the trips and of `deadheads.csv` together."""

MOST_EMPTY_MINUTES = 1_440
"""The most minutes of a record of `deadheads.csv` and of `depot.csv`."""

MOST_RULES = 32_768
"""The most records of `pairs.csv`."""
