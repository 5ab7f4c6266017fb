"""desk: the desk of a board farm, from a terminal or a script."""
from fizgruk._tools.service import Teller
from fizgruk.errors import FizgrukError

tell = Teller("desk")
ENDED, REFUSED, FAULT = 1, 3, 4  # exit statuses


class Lacking(FizgrukError):
    """What a word names isn't there."""
