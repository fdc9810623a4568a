"""The workbench beside the proved program: it drafts what is read, lists what looks wrong, and draws.

Vehicles, blocks, minutes, deficits and verdicts come from `blockdesk` alone. Nothing of this package is proved.
"""
