"""Runs the workbench as `python3 -m desk`."""
import sys

from desk.cli import main

if __name__ == "__main__":
    sys.exit(main(sys.argv[1:]))
