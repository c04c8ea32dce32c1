"""Draws a run of onepipe as a page that stands alone. `bin/picture` calls `command.main`."""
