"""Schedules by minor cycles, and the exploration of all orders."""
