"""A short soak: successions with kills between, and in the end each durable commit is there. `clients/python/soak` goes on for longer."""

from __future__ import annotations

import unittest

from soak import Soak


class Short(unittest.TestCase):
    def test_databases_live_on_over_successions_and_kills(self) -> None:
        soak = Soak(5, 1, 100.0, least=3, audit=2000)
        self.addCleanup(soak.stop)
        self.assertEqual(soak.run(), 0)

    def test_and_with_a_store(self) -> None:
        soak = Soak(5, 2, 100.0, least=3, audit=2000, store=True)
        self.addCleanup(soak.stop)
        self.assertEqual(soak.run(), 0)

    def test_and_by_tls(self) -> None:
        soak = Soak(5, 3, 100.0, least=3, audit=2000, by_tls=True)
        self.addCleanup(soak.stop)
        self.assertEqual(soak.run(), 0)
