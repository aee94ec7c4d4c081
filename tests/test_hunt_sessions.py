"""The hunt among sessions: it finds each fault that is planted there, and takes none for one that is harmless."""
from unittest import mock

from hunt import desks, finds, kept, session_faults
from hunt.channels import Broken
from hunt.finds import Hunt
from hunt.houses import House
from hunt.parts import Sessions
from hunt.plans import Plan
from hunt.talks import begins_command
from program import ProgramTest

SEED = 15
# Each planted fault has to be found among so many plans, and one whose plan is made smaller be left with so few steps.
FEW_PLANS, FEW_STEPS = 40, 12


class Planted(ProgramTest):
    def found(self, start, sync=desks.sync):
        """The hunt, and what it finds of what is started so."""
        hunt = Hunt(SEED, [Sessions(start, sync)])
        find = hunt.first(hunt.parts[0], FEW_PLANS)
        self.assertIsNotNone(find)
        return hunt, find

    def test_a_find_is_made_smaller_and_replayed(self):
        hunt, find = self.found(session_faults.by_desk(session_faults.ReceiptTwice))
        folder, _ = hunt.keep(find, self.folder())
        name, plan = finds.read(folder / "plan")
        self.assertEqual(name, "sessions")
        self.assertLessEqual(len(plan.parts), FEW_STEPS)
        self.assertIsNotNone(hunt.parts[0].trouble(plan))

    def test_each_fault_of_a_sheet_is_found(self):
        for kind in session_faults.SHEETS:
            with self.subTest(kind=kind.__name__):
                self.found(session_faults.on_sheet(kind))

    def test_each_fault_of_a_server_is_found(self):
        for kind in session_faults.DESKS:
            with self.subTest(kind=kind.__name__):
                self.found(session_faults.by_desk(kind))

    def test_each_fault_of_a_follower_is_found(self):
        for kind in session_faults.FOLLOWERS:
            with self.subTest(kind=kind.__name__):
                self.found(session_faults.by_follower(kind))

    def test_each_fault_of_a_kept_file_is_found(self):
        for kind in session_faults.FILES:
            with self.subTest(kind=kind.__name__):
                self.found(session_faults.by_file(kind))

    def test_a_sync_that_loses_a_line_is_found(self):
        self.found(session_faults.by_desk(desks.Desk), desks.sync_that_loses)

    def test_sessions_of_the_model_have_no_fault(self):
        hunt = Hunt(SEED, [Sessions(session_faults.by_desk(desks.Desk), desks.sync)])
        find = hunt.first(hunt.parts[0], 40)
        self.assertIsNone(find and find.trouble)


class BrokenOff(ProgramTest):
    def test_beginnings_that_may_be_a_request(self):
        """A connection that is broken off after one is no session: a word alone, or one before `/` or `*`."""
        for begun, is_command in ((b"", False), (b"p", False), (b"pull", False), (b"pull ", False), (b"pull 1", True),
                                  (b"patch /", False), (b"set *", False), (b"set A1 *", True), (b"Get A1", False)):
            with self.subTest(begun=begun):
                self.assertEqual(begins_command(begun), is_command)

    def test_half_a_word(self):
        """It takes none of the sessions that a server waits for."""
        settings = {"servers": 1, "sessions": 2, "syncs": 0, "replica": 1, "workers": 1, "followers": 0, "kept": False}
        plan = Plan(settings, (("send", 0, b"pul"), ("leave", 0, 1), ("send", 1, b"set A1 5\n"), ("end", 1)))
        self.assertIsNone(Sessions().trouble(plan))


class Killed(ProgramTest):
    def test_what_a_server_was_telling_is_cut_anywhere(self):
        server = mock.Mock()
        house = House(lambda *_: server, ("--replica", "6"), (1, 0), self.folder())
        opened, whole = kept.told(house.file, 0), kept.told(house.file, 0, 6)
        for size in range(len(whole) + 1):
            server.kill.return_value = whole[:size]
            house.crash(0)
        others = (b"x", opened + b"x", whole + b"x", opened[1:], opened.replace(b", 0 ", b", 1 "))
        for server.kill.return_value in others:
            with self.subTest(told=server.kill()), self.assertRaises(Broken):
                house.crash(0)
