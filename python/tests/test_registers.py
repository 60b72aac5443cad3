"""Tests of files of lines that tell of hosts and link nobody. They need no program."""

import unittest

from tagzirk.asked import Asked
from tagzirk.errors import BadDump
from tagzirk.forms import listings_of

# Files of this kind, and a part of what is told of them.
REGISTERS = (
    ("127.0.0.1 localhost\n127.0.0.1 oslo-1\n127.0.0.1 vm\n", "as /etc/hosts has"),
    ("127.0.0.1 localhost\n::1 localhost ip6-localhost # both\n10.0.0.1\toslo-1\n", "as /etc/hosts has"),
    ("10.0.0.1 oslo-1 oslo-1.example.net\n10.0.0.2 oslo-2\n", "as /etc/hosts has"),
    ("fe80::1%eth0 oslo-1 router\n", "as /etc/hosts has"),
    ("10.0.0.1 oslo-1\n10.0.0.2 oslo-2\n", "a host and its address"),
    ("oslo-1 10.0.0.1\noslo-2 10.0.0.2\n", "a host and its address"),
    ("name,ip-address\noslo-1,10.0.0.1\noslo-2,10.0.0.2\n", "a host and its address"),
    ("52:54:00:12:35:02 oslo-1\n52:54:00:12:35:03 oslo-2\n", "a host and its address"),
    ("oslo-1 ssh-ed25519 AAAAC3NzaC1l\n[rome-1]:2222 ecdsa-sha2-nistp256 AAAAE2Vj root@rome\n", "as known_hosts has"),
    ("|1|F1E1KeoE=|Dgb= ssh-rsa AAAAB3Nz\n", "as known_hosts has"),
    ("echo 7/tcp\necho 7/udp\nhttp 80/tcp www\n", "as /etc/services has"),
    ("oslo-1 ansible_host=10.0.0.1\noslo-2 ansible_host=10.0.0.2 ansible_user=root\n", "a host and settings"),
    ("host,rack\noslo-1,r1\noslo-2,r1\n", "a host and its rack"),
    ("Name;IP;Rack\noslo-1;10.0.0.1;r1\n", "a host and its ip and rack"),
)
# Links that are like these.
LINKS = (
    "10.0.0.1 10.0.0.2\n10.0.0.2 10.0.0.3\n",
    "10.0.0.1 oslo-1\n10.0.0.1 oslo-2\n",
    "oslo-1 10.0.0.1\noslo-1 rome-1\n",
    "10.0.0.1:7946 oslo-1:7946\n10.0.0.2:7946 oslo-2:7946\n",
    "host rack\nrack oslo-1\n",
    "10.0.0.1 oslo-1\n",
    # public keys of WireGuard
    "xTIBA5rboUvnH4htodjb6e697QjLERt1NAB4mZqp8Dg= yAnz5TFlXXJte14tji3zlMNqhd2rYUIgJBgB3fBmk4c=\n",
)


class Registers(unittest.TestCase):
    def test_what_is_refused(self):
        for text, told in REGISTERS:
            with self.assertRaisesRegex(BadDump, f"{told}.*, and no link; if these are links, --form says", msg=text):
                listings_of(text.encode(), "net", Asked())

    def test_links(self):
        for text in LINKS:
            self.assertIsNone(listings_of(text.encode(), "net", Asked()), text)

    def test_what_is_asked_for_is_taken(self):
        text = b"127.0.0.1 localhost\n127.0.0.1 vm\n"
        self.assertIsNone(listings_of(text, "net", Asked(form="edges")))
        for asked in Asked(form="weighted"), Asked(columns="1,2"):
            self.assertEqual(set(listings_of(text, "net", asked).peers), {"127.0.0.1", "localhost", "vm"})
        weighted = listings_of(b"10.0.0.1 oslo-1 5\n10.0.0.1 oslo-2 7\n", "net", Asked())
        self.assertEqual(set(weighted.peers["10.0.0.1"]), {"oslo-1", "oslo-2"})


if __name__ == "__main__":
    unittest.main()
