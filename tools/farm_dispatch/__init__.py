"""farm-dispatch: passes, and runs the jobs that got their boards."""
