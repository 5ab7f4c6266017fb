"""The options that say where the desk is and who asks, which each tool has."""
import argparse
from typing import Dict, Optional

from fizgruk import settings
from fizgruk._tools.parsers import Parser
from fizgruk.settings import OWN_FILE, SERVER, SYSTEM_FILE, Settings

ABOUT = """\
Each option that follows is a setting too: it has a name in the environment, as '{2}_SERVER', and, \
but for --config, one in the section '[{0}]' of the file of settings, as 'server'. Options go \
first, then the environment,{1} and last the file of settings. A variable that begins with '{2}_', \
a key of the section, or a section that there isn't ends it with status 2, and it says which one \
may be meant."""
PASSWORD = """\
A file that nobody else may read, whose first line is the password; without it, the one in \
~/.netrc. A password is sent over TLS, or to this machine, alone."""


def add_options(
    parser: Parser,
    section: str,
    user: str,
    before_file: str = "",
    timeout: str = "How long a network call may wait (default 30).",
) -> argparse._ArgumentGroup:
    """The options that each tool has for its server and user, which are settings of a section too.
    `user` says who asks where nothing names one, `before_file` what else is looked at."""
    group = parser.add_settings(section, ABOUT.format(section, before_file, section.upper()))
    option = group.add_argument
    about = f"The file of settings (without it, {SYSTEM_FILE}, and over it {OWN_FILE})."
    option("--config", metavar="FILE", help=about)
    option("--server", metavar="URL", help=f"The desk's address (default {SERVER}).")
    option("--user", metavar="NAME", help=f"Who asks ({user}).")
    option("--password-file", metavar="FILE", help=PASSWORD)
    about = "The certificates that the server's is checked by."
    option("--ca-file", metavar="FILE", help=about)
    option("--timeout", metavar="SECONDS", help=timeout)
    parser.set_defaults(bad_words=parser.error)
    return group


def values_of(section: str, options: argparse.Namespace) -> Dict[str, Optional[str]]:
    """What is said for each setting of a section. One that there isn't ends the tool as a misspelt
    option does, with status 2."""
    return settings.values_of(vars(options), section, options.bad_words)


def settings_of(section: str, options: argparse.Namespace, user: Optional[str] = None) -> Settings:
    """The settings of a tool's calls; `user` is who asks where nothing names one."""
    return settings.read_settings(vars(options), section, user, options.bad_words)
