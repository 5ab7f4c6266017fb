"""A week of a lab, in parts: what lab_days.py plays and demands."""
