"""`sheet serve` is for the people of one machine: where it listens, and where it doesn't."""
import socket
from pathlib import Path

from program import LIMIT, ProgramTest
from servers import HERE, serving

# A second address of this machine, which a server that listens at all of its addresses has as well.
BESIDE = "127.0.0.2"
# The files in which the system lists the sockets of each family, and the state of one that listens.
LISTS = ("/proc/net/tcp", "/proc/net/tcp6")
LISTENS = "0A"


def addresses(port):
    """Each address at which something listens on this port, as the system writes it."""
    found = []
    for name in LISTS:
        path = Path(name)
        # (a system without the newer family has no list of it)
        rows = path.read_text().splitlines()[1:] if path.exists() else []
        for row in rows:
            _, local, _, state, *_ = row.split()
            address, _, number = local.partition(":")
            if state == LISTENS and int(number, 16) == port:
                found.append(address)
    return found


def written(address):
    """An address as the system writes it in its lists: the four bytes in the order of this machine's words."""
    return socket.inet_aton(address)[::-1].hex().upper()


class Outside(ProgramTest):
    def test_it_listens_at_the_one_address_of_this_machine_alone(self):
        with serving(1) as server:
            self.assertEqual(addresses(server.port), [written(HERE)])

    def test_a_connection_to_another_address_is_refused(self):
        with serving(1) as server, socket.socket() as other:
            other.settimeout(LIMIT)
            with self.assertRaises(ConnectionRefusedError):
                other.connect((BESIDE, server.port))
            self.assertEqual(server.client().leave(), b"")
