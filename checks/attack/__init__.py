"""The parts of checks/hostile.py, which attacks the built program."""
