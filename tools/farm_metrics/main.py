"""farm-metrics: what a desk shows, in Prometheus' text format."""
import argparse
import contextlib
import http.server
import os
from typing import Optional, Sequence

from prometheus_client import CollectorRegistry, MetricsHandler, generate_latest

from farm_metrics import collecting
from fizgruk import calls
from fizgruk._tools import asking, disk, parsers, passes, service
from fizgruk._tools.service import FAULT, Teller

PROGRAM = "farm-metrics"
tell = Teller(PROGRAM)
LONGEST_LOOK = 5.0  # seconds that the desk has for an answer
STALLED = 10  # seconds that a client has for its request
HISTORY = "/var/lib/farm-dispatch/history.jsonl"
ACCESS = "/var/lib/farm-access/shown/access.json"
ABOUT = """\
Asks a desk for its status, its boards and its queue, and prints once, in Prometheus' text format, \
what it counts. With --textfile it writes that into a file of node_exporter's textfile folder, by \
a rename; with --listen it serves it on 127.0.0.1, and asks the desk at each request, whose \
address it tells first on standard error. It asks for \
no view that grows with the farm's age."""
STATUSES = (
    ("0", "Done; --listen: it was ended by a signal."),
    ("2", "Bad words, or a setting that there isn't."),
    (
        "4",
        "No answer from the desk (what is printed says 'fizgruk_up 0'), bad settings, or a file or "
        "a port that can't be used.",
    ),
)


def main(words: Optional[Sequence[str]] = None) -> int:
    return service.run(tell, lambda: status_of(parser_of().parse_args(words)), ended="ended by a signal")


def status_of(options: argparse.Namespace) -> int:
    """Does what the options ask for. Returns the exit status."""
    desk = calls.Desk(asking.settings_of("desk", options, "metrics"), patience=0)
    desk.timeout = min(desk.timeout, LONGEST_LOOK)
    state = options.state or (options.textfile and f"{options.textfile}.state")
    beside = os.path.join(os.path.dirname(options.history), passes.FILE)
    files = (options.history, options.passes or beside, state, options.access)
    collector, registry = collecting.FarmCollector(desk, *files, service.Troubles(tell)), CollectorRegistry()
    registry.register(collector)
    if options.listen is not None:
        tell(f"asks the desk at {desk.server}")
        listen(registry, options.listen)
        return 0
    text = generate_latest(registry).decode()
    if options.textfile:
        disk.write_whole(options.textfile, text)
    else:
        print(text, end="", flush=True)
    return FAULT if collector.has_failed() else 0


def parser_of() -> parsers.Parser:
    parser = parsers.parser_of(PROGRAM, ABOUT, STATUSES)
    rest = "[--history FILE] [--passes FILE] [--access FILE] [--state FILE] [settings]"
    parser.forms = (f"{PROGRAM} [--textfile PATH] {rest}", f"{PROGRAM} --listen PORT {rest}")
    where = parser.add_mutually_exclusive_group()
    about = "Write this file in place of the output; its name has to end with '.prom'."
    where.add_argument("--textfile", metavar="PATH", help=about)
    about = """\
Serve http://127.0.0.1:PORT/metrics, and print 'listening PORT' first; 0 takes a port that is
free."""
    where.add_argument("--listen", metavar="PORT", type=parsers.whole(0, 65535), help=about)
    parser.option("--history", "FILE", """\
The dispatcher's history (default %(default)s). It is read once, and then each time only what is
new.""", default=HISTORY)
    parser.option("--passes", "FILE", f"""\
How many passes the dispatcher asked for, and when the last (default {passes.FILE} in the folder of
the history).""")
    parser.option("--access", "FILE", "What farm-access says of boards (default %(default)s).", default=ACCESS)
    parser.option("--state", "FILE", """\
What is kept for the next time: since when claims are seen, and the counts of the history (default
PATH.state with --textfile; else nothing is kept).""")
    timeout = "How long a network call may wait, 5 at most (default 5)."
    asking.add_options(parser, "desk", "default metrics, which the desk lets look", timeout=timeout)
    return parser


def listen(metrics: CollectorRegistry, port: int) -> None:
    """Serves the metrics until a signal comes."""

    class MetricsRequest(MetricsHandler):
        """One client's requests."""

        registry = metrics
        timeout = STALLED

        def do_GET(self) -> None:  # the name that http.server calls
            if self.path.partition("?")[0] != "/metrics":
                self.send_error(404)
                return
            try:
                super().do_GET()
            except OSError as fault:  # a client that went
                tell(str(fault))

    with http.server.ThreadingHTTPServer(("127.0.0.1", port), MetricsRequest) as server:
        server.daemon_threads = True
        print(f"listening {server.server_port}", flush=True)
        with contextlib.suppress(service.Interrupted):
            server.serve_forever()
