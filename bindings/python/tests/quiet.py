"""Tests beside the package cryptography, without its warnings."""

from __future__ import annotations

import unittest
import warnings


class Quiet(unittest.TestCase):
    def setUp(self) -> None:
        # (cryptography warns of serial numbers that aren't positive)
        quiet = warnings.catch_warnings()
        quiet.__enter__()
        self.addCleanup(quiet.__exit__, None, None, None)
        warnings.simplefilter("ignore")
