"""farm-from-desk, farm-from-labgrid, farm-from-lava: lab files of what another system knows of its boards."""
