"""The view of a run: what happened in which order, inside what, and what is left at the end, as a page and as a
text.
"""
