"""Tests of the workbench: `cd workbench && python3 -m unittest` runs all."""
