"""The ledger's calls, searched through every crash with two texts; and that the search finds faults that are planted."""
from __future__ import annotations

import os
import unittest
from trying import TOP
import ledger_model
from ledger_model import FAULTS, ORDERS, Wrong

PROVED = os.path.join(TOP, 'crates', 'ledger_tests', 'stdout')

# Where a fault does no harm: a journal brings all that was done before, in its order.
ORDERED_ALONE = frozenset(FAULTS[index] for index in (0, 2, 3, 4, 8, 9))


class LedgerModel(unittest.TestCase):
    def test_nothing_is_lost_or_done_twice_whatever_a_crash_leaves(self) -> None:
        for order in ORDERS:
            for batch in (1, 2):
                with self.subTest(order=order, batch=batch):
                    self.assertGreater(ledger_model.search(order, 2, batch=batch).outcomes, 1000)

    def test_what_is_proved_makes_the_same_calls_with_the_same_outcomes(self) -> None:
        with open(PROVED, encoding='ascii') as file:
            self.assertEqual(file.read().splitlines(), [line for texts in (1, 2) for line in ledger_model.listed(texts)])

    def test_a_file_that_is_dropped_meanwhile_is_its_own(self) -> None:
        self.assertGreater(ledger_model.search('ordered', 2, late=True).outcomes, 1000)

    def test_each_fault_is_found_on_a_strict_disk(self) -> None:
        for fault in FAULTS:
            with self.subTest(fault=fault), self.assertRaises(Wrong):
                ledger_model.search('strict', 1 if fault == FAULTS[0] else 2, faults=frozenset([fault]))

    def test_a_journal_hides_faults_of_order(self) -> None:
        for fault in FAULTS:
            with self.subTest(fault=fault):
                if fault in ORDERED_ALONE:
                    ledger_model.search('journal', 2, faults=frozenset([fault]))
                else:
                    with self.assertRaises(Wrong):
                        ledger_model.search('journal', 2, faults=frozenset([fault]))


if __name__ == '__main__':
    unittest.main()
