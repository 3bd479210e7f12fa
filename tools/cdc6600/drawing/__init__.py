"""The timelines and the pages of sessions."""
