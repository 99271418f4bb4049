"""Precautions of TLS: handshakes that break off, keepers that lie, and closes."""

from plant import Plant

PLANTS = {
    "TLS, or else plain": Plant("../dialing", "                made = trust.wrap(made, host, max(_LEAST, share - time.monotonic()))\n",
                                "                try:\n                    made = trust.wrap(made, host, max(_LEAST, share - time.monotonic()))\n"
                                "                except OSError:\n                    made = _connected(family, kind, protocol, address, timeout)\n",
                                "trust", "is_followed_nowhere_in_plain"),
    "TLS, of page servers": Plant("../page_copies", "self._credentials(place.run), self._trust)", "self._credentials(place.run), None)", "trust",
                                  "no_page_server_in_plain"),
    "TLS, a socket of a cut handshake": Plant("../secure", "            found.close()\n            raise _told(error) from error\n        return found\n",
                                              "            found.detach()\n            raise _told(error) from error\n        return found\n",
                                              "fronts", "breaks_off_at_each_byte"),
    "TLS, a cut handshake, said": Plant("../secure", "            found.close()\n            raise _told(error) from error\n        return found\n",
                                        "            found.close()\n            raise\n        return found\n", "fronts", "breaks_off_at_each_byte"),
    "TLS in C, a socket of a cut handshake": Plant("c/pagelog_connection.c", "    close(fd);\n    pagelog_abandon(log); /* of",
                                                   "    pagelog_abandon(log); /* of", "c/secured", "breaks_off_at_each_byte"),
    "TLS in C, of page servers": Plant("c/pagelog_copies.c", "of_run, copies->reader.tls);", "of_run, NULL);", "c/secured", "no_answer_takes_it_away"),
    "a heartbeat's socket": Plant("c/pagelog_vfs_heartbeat.c", "    if (is_asleep) eventfd_write(woken, 1); /* a socket", "    if (false) eventfd_write(woken, 1); /* a socket",
                                  "c/turns", "kept_ends_with_the_last_close"),
}  # fmt: skip
