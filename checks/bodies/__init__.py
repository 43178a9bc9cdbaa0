"""The parts of checks/edits.py, which tries bodies that the check has to refuse."""
