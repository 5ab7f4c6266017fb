"""farm-metrics: what a desk shows, in Prometheus' text format."""
