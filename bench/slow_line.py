"""A relay to a port of this machine, behind which all seems to stand at the end of a slow line.

What passes is late by half of a round trip each way, and so many bytes a second come, of all connections together;
a connection begins a round trip late, as TCP's does that has to be opened. What TCP does on a real line beside that (the
slow start, lost packets) isn't in it.
"""
from __future__ import annotations

import asyncio
import socket
import threading
from typing import Optional, Tuple

BLOCK = 1400
# What is on its way in a direction at most: as much more than a line's own room as a home's router has.
WAITING = 64 * 1024
Piece = Tuple[float, bytes]


class Way:
    """One direction of the line, which all connections share."""

    def __init__(self, late: float, rate: Optional[float]):
        self.late, self.rate, self.free = late, rate, 0.0

    def due(self, now: float, size: int) -> float:
        """When so many bytes that are sent now have come."""
        self.free = max(now, self.free) + (size / self.rate if self.rate else 0)
        return self.free + self.late

    async def carry(self, reader: asyncio.StreamReader, writer: asyncio.StreamWriter) -> None:
        """Carries all that comes, and then the end."""
        loop = asyncio.get_running_loop()
        pieces: "asyncio.Queue[Piece]" = asyncio.Queue(WAITING // BLOCK if self.rate else 0)
        handing_on = asyncio.ensure_future(hand_on(pieces, writer))
        try:
            block = b"begin"
            while block and not handing_on.done():
                block = await reader.read(BLOCK)
                await pieces.put((self.due(loop.time(), len(block)), block))
            await handing_on
        finally:
            handing_on.cancel()


async def hand_on(pieces: "asyncio.Queue[Piece]", writer: asyncio.StreamWriter) -> None:
    """Hands on each piece when it has come, up to an empty one, the end."""
    loop = asyncio.get_running_loop()
    due, block = await pieces.get()
    while block:
        await asyncio.sleep(due - loop.time())
        writer.write(block)
        await writer.drain()
        due, block = await pieces.get()
    writer.close()


class SlowLine:
    """The relay, at a port of its own. `rate` is bytes a second of what comes, or None where all come at once."""

    def __init__(self, port: int, trip: float, rate: Optional[float]):
        self.to, self.trip = port, trip
        self.up, self.down = Way(trip / 2, rate), Way(trip / 2, rate)
        self.loop = asyncio.new_event_loop()
        listens = socket.create_server(("127.0.0.1", 0))
        self.port = int(listens.getsockname()[1])
        self.loop.run_until_complete(asyncio.start_server(self._take, sock=listens))
        threading.Thread(target=self.loop.run_forever, daemon=True).start()

    async def _take(self, reader: asyncio.StreamReader, writer: asyncio.StreamWriter) -> None:
        await asyncio.sleep(self.trip)
        far_reader, far_writer = await asyncio.open_connection("127.0.0.1", self.to, limit=BLOCK)
        ways = self.up.carry(reader, far_writer), self.down.carry(far_reader, writer)
        await asyncio.gather(*ways, return_exceptions=True)

    def end(self) -> None:
        """Ends all that it carries."""
        asyncio.run_coroutine_threadsafe(self._cancel(), self.loop).result()
        self.loop.call_soon_threadsafe(self.loop.stop)

    async def _cancel(self) -> None:
        carrying = asyncio.all_tasks() - {asyncio.current_task()}
        for it in carrying:
            it.cancel()
        await asyncio.gather(*carrying, return_exceptions=True)
