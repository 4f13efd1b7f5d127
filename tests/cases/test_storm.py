"""Whole days in which a seed decides what goes wrong."""

from concurrent.futures import ThreadPoolExecutor

import storm
from support import TAPEBOX, Case

# Days of different kinds: several followers, killed ones, long and lossy ones, days of a file that are ended or flooded, and one whose `live` is killed.
SEEDS = range(1, 13)
# Days that keep a journal: most of their `live` are killed, up to three times, and go on.
JOURNAL_SEEDS = range(18, 26)
AT_ONCE = 6


class Storm(Case):
    def assert_days(self, tried, seeds):
        """Each day of these seeds ends as it should."""
        # So that no two days look for it at once.
        self.assertTrue(TAPEBOX.path)
        with ThreadPoolExecutor(AT_ONCE) as days:
            for seed, (is_right, line) in zip(seeds, days.map(tried, seeds)):
                with self.subTest(seed):
                    self.assertTrue(is_right, line)

    def test_days_by_seeds(self):
        """tests/storm.py: each day of a few seeds ends as it should."""
        self.assert_days(storm.tried, SEEDS)

    def test_days_with_a_journal(self):
        """tests/storm.py: so does each that keeps a journal, and goes on after its `live` was killed."""
        self.assert_days(storm.tried_with_journal, JOURNAL_SEEDS)
