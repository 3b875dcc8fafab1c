"""Tests of the view: those of the page run in a real browser."""
