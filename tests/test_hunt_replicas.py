"""The hunt among replicas: it finds each fault that is planted there, and takes none for one that is harmless."""
from hunt import finds, processes, replica_faults
from hunt.finds import Hunt
from hunt.parts import Replicas
from program import ProgramTest

SEED = 15
# Each planted fault has to be found among so many plans, and its plan to be left with so few steps.
FEW_PLANS, FEW_STEPS = 400, 20


class Planted(ProgramTest):
    def assert_found(self, start):
        """What is started so is found, and the plan made smaller; replayed, it shows the trouble again."""
        hunt = Hunt(SEED, [Replicas(start)])
        find = hunt.first(hunt.parts[0], FEW_PLANS)
        self.assertIsNotNone(find)
        folder, _ = hunt.keep(find, self.folder())
        name, plan = finds.read(folder / "plan")
        self.assertEqual(name, "replicas")
        self.assertLessEqual(len(plan.parts), FEW_STEPS)
        self.assertIsNotNone(hunt.parts[0].trouble(plan))

    def test_each_fault_of_a_sheet_is_found(self):
        for kind in replica_faults.SHEETS:
            with self.subTest(kind=kind.__name__):
                self.assert_found(replica_faults.on_sheet(kind))

    def test_each_fault_of_a_process_is_found(self):
        for kind in replica_faults.PROCESSES:
            with self.subTest(kind=kind.__name__):
                self.assert_found(replica_faults.by_process(kind))

    def test_each_fault_of_a_kept_file_is_found(self):
        for kind in replica_faults.FILES:
            with self.subTest(kind=kind.__name__):
                self.assert_found(replica_faults.by_file(kind))

    def test_a_kept_file_without_a_fault_is_none(self):
        hunt = Hunt(SEED, [Replicas(replica_faults.by_process(processes.StandIn))])
        find = hunt.first(hunt.parts[0], 60)
        self.assertIsNone(find and find.trouble)

    def test_a_delta_that_is_repeated_is_no_fault(self):
        hunt = Hunt(SEED, [Replicas(replica_faults.by_process(replica_faults.Repeats))])
        self.assertIsNone(hunt.first(hunt.parts[0], 40))
