"""farm-page: the status page of a desk on one's own machine, for a try."""
