"""Which way answers: `farm-access check` says it for each board, and what is wrong with the rest: also what somebody
else on this machine could open, who goes round the desk by it."""
import grp
import os
import socket
import stat
import subprocess
import sys
from typing import Any, Callable, Dict, List, Sequence

from farm_access import client, door, holds, opener, site as sites
from farm_access.holds import GROUP, BoardSeen, Lookout, NoDesk, asked_again
from farm_access.site import DEVICES, NETWORK, BadWay, Site, Ways, lacks, whole
from fizgruk._tools import commands

PATIENCE, TRIES_WITHIN = 10.0, 2.0
GOOD, BAD = 0, 1
NOBODY = 65534
IN_UDEV = 'a rule of udev\'s gives it to root alone, by MODE="0600"'
FOR_COMMANDS = f'a rule of udev\'s gives it to units of holds alone, by GROUP="{GROUP}", MODE="0660"'


def check(site: Site, names: Sequence[str]) -> int:
    """Prints a line for the site's own parts, and one for each way of each board."""
    if os.getuid():
        return _told("check", "it is root's") and BAD
    faults = _of_site(site)
    try:
        boards = asked_again(Lookout(site).boards)
    except NoDesk as fault:
        return _told("desk", str(fault)) and BAD
    for name in names or sorted(boards):
        faults += _of_board(site, boards[name]) if name in boards else _told(name, "there is no such board")
    return BAD if faults else GOOD


def _told(what: str, fault: str, well: str = "answers") -> int:
    """Prints how something is. Returns how many faults that are."""
    print(f"{what}: {fault or well}")
    return 1 if fault else 0


def _of_site(site: Site) -> int:
    faults = 0
    for what, place in (("door", client.JOBS), ("opener", opener.SOCKET)):
        with socket.socket(socket.AF_UNIX) as line:
            is_shut = line.connect_ex(place)
        faults += _told(what, f"{place}: {os.strerror(is_shut)}: systemctl start farm-access-guard" if is_shut else "")
    members = " ".join(grp.getgrnam(GROUP).gr_mem)
    faults += _told(GROUP, f"{members} can open boards' devices: gpasswd -d NAME {GROUP}" if members else "", "nobody")
    names = sites.names_in(site.keys)
    faults += _told("keys", "" if names else f"{site.keys} has nobody's keys", f"of {len(names)}")
    for name in names:
        rows = sites.keys_in(site.keys, name)
        odd = [it for it in rows if not sites.KEY_TYPE.fullmatch(it[0]) or not sites.KEY.fullmatch(it[1])]
        if odd or not rows:
            faults += _told(f"keys of {name}", "a line isn't TYPE KEY, as in a .pub file" if odd else "none")
    return faults


def _of_board(site: Site, board: BoardSeen) -> int:
    ways = door.ways_of(site, board)
    if not ways:
        return _told(board.name, "access.toml has no way for it")
    with holds.locked(board.name):
        if holds.units_of(board.name):
            return _told(board.name, "", f"in use by {board.holder}, so it isn't tried")
        return sum(_of_way(board.name, name, ways) for name in sorted(ways))


def _of_way(board: str, name: str, ways: Ways) -> int:
    # (of addresses of `network` no port is known)
    tries: Dict[str, Callable[[Any], List[str]]] = {
        "console": _console, "power": _power, "tcp": _tcp, NETWORK: lambda _: [],
        DEVICES: lambda way: [fault for file in way for fault in _others(file, FOR_COMMANDS)],
    }
    way = ways[name]
    if lacks(way):
        return _told(f"{board} {name}", f"it has no tag {', '.join(f'{it}=..' for it in lacks(way))}")
    try:
        faults = tries.get(name, _command)(way)
    except (OSError, BadWay, ValueError) as fault:
        faults = [str(fault)]
    return _told(f"{board} {name}", "; ".join(faults), "answers" if name in tries else "can be run")


def _console(way: Any) -> List[str]:
    os.close(opener.open_console(way, PATIENCE)[0])
    if "tcp" in way:
        return _open_to_others(way["tcp"])
    mend = IN_UDEV if "device" in way else f"its folder is root's, with mode 0700, or the group's {GROUP}"
    return _others(way.get("device") or way["unix"], mend)


def _tcp(way: Any) -> List[str]:
    return [fault for port in way.get("ports", []) for fault in _address(f"{whole(way.get('host'), 'host of tcp')}:{port}")]


def _power(way: Any) -> List[str]:
    """Whether what switches power is there, and nobody else's; nothing is switched."""
    steps = sites.steps_of("cycle", way)
    if steps.address:
        return _address(steps.address, "pdudaemon: ")
    return [fault for verb in sites.VERBS if verb in way for fault in _command(way[verb])]


def _address(address: str, whose: str = "") -> List[str]:
    try:
        os.close(opener.open_address(address, 0, whose)[0])
    except OSError as fault:
        return [str(fault)]
    return _open_to_others(address)


def _command(way: Any) -> List[str]:
    return list(filter(None, [commands.fault_of(way)]))


# ---- who else


def _others(file: str, mend: str) -> List[str]:
    others = who_else(file)
    return [f"{others} can open {file}: {mend}"] if others else []


def who_else(file: str) -> str:
    """Who but root, units of holds and the account of a socket's own server can open a file; nothing where nobody can."""
    found = os.path.realpath(file)
    about = os.stat(found)
    if stat.S_ISCHR(about.st_mode) and about.st_uid:
        return f"uid {about.st_uid}"
    if stat.S_ISCHR(about.st_mode) and "system.posix_acl_access" in os.listxattr(found):
        return f"who its ACL names (setfacl -b {found})"
    if about.st_mode & stat.S_IRWXO and _leads(found, -1):
        return "everybody"
    ours = (0, grp.getgrnam(GROUP).gr_gid)
    if about.st_mode & stat.S_IRWXG and about.st_gid not in ours and _leads(found, about.st_gid):
        return "the group " + next((it.gr_name for it in grp.getgrall() if it.gr_gid == about.st_gid), str(about.st_gid))
    return ""


def _leads(file: str, group: int) -> bool:
    """Whether the folders before a file let a group through, or, for -1, everybody."""
    while file != "/":
        file = os.path.dirname(file)
        about = os.stat(file)
        if not about.st_mode & stat.S_IXOTH and not (about.st_gid == group and about.st_mode & stat.S_IXGRP):
            return False
    return True


def _open_to_others(address: str) -> List[str]:
    """What is wrong with an address, where an account without rights gets through to it."""
    host, _, port = address.rpartition(":")
    host = host.strip("[]")
    tries = f"import socket, sys; socket.create_connection(sys.argv[1:], {TRIES_WITHIN})"
    words = [sys.executable, "-IS", "-c", tries, host, port]
    if subprocess.run(words, user=NOBODY, group=NOBODY, extra_groups=[], stderr=subprocess.DEVNULL, check=False).returncode:
        return []
    is_here = host.startswith("127.") or host in ("localhost", "::1")
    what = f"ports {{ {port} }}" if is_here else f"addresses{'6' * (':' in host)} {{ {host} }}"
    return [f"everybody on this machine can reach {address}: /etc/farm/port.d/boards.nft: add element inet farm_boards {what}"]
