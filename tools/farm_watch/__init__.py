"""farm-watch: tells by mail and webhook what happens at the desk, and ends holds."""
