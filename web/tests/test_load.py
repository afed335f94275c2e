"""Some seconds of the fifty people of load.py, which takes a minute by itself."""
import unittest

from load import faults_under_load
from support import Page


class Load(unittest.TestCase):
    """Fifty people at once."""

    def test_fifty(self) -> None:
        page = Page(workers=4)
        self.addCleanup(page.close)
        self.assertEqual(faults_under_load(8, 50, page), [])


if __name__ == "__main__":
    unittest.main()
