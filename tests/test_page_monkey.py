"""The hunt at two pages of `sheet serve`: it finds faults that are planted in the page, and none in the page itself."""
import unittest

import browser
from hunt import finds
from hunt.finds import Hunt
from hunt.parts import Pages
from program import NO_BROWSER, ProgramTest

SEED = 11
# Each planted fault has to be found among so many plans.
FEW_PLANS = 8
# A copy whose references stay, a paste that isn't cut into cells, an undo that does nothing.
FAULTS = ("moved = (cell, text) => [cell, text]", "readFields = text => [[[text.trim()]], 0]",
          "setBack = async () => [[], []]")


class Planted(ProgramTest):
    def setUp(self):
        if browser.program() is None:
            self.skipTest(NO_BROWSER)

    def test_each_fault_is_found(self):
        for fault in FAULTS:
            with self.subTest(fault=fault):
                part = Pages(fault)
                find = Hunt(SEED, [part]).first(part, FEW_PLANS)
                self.assertIsNotNone(find)
                # what is written down shows it again, and nothing in a page without the fault
                folder, about = finds.write_down(find, SEED, len(find.plan.parts), self.folder())
                self.assertIn("of seed 11", about)
                name, plan = finds.read(folder / "plan")
                self.assertEqual(name, "pages")
                self.assertIsNotNone(part.trouble(plan))
                self.assertIsNone(Pages().trouble(plan))


if __name__ == "__main__":
    unittest.main()
