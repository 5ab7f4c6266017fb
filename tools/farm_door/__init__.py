"""farm-door: who may ask the desk for how much, as nginx asks it of each request."""
