"""Peers that wait: a reply is out before the next line is sent, and while the input stays open."""
import peers
from program import Ended, ProgramTest


class Waiting(ProgramTest):
    def assert_answered(self, peer):
        """Each line of this peer is answered before the next one is sent."""
        self.assertEqual(peer.ask("set B1 =[.A1]*2"), "ok 1")
        for version in range(2, 200):
            self.assertEqual(peer.ask(f"set A1 {version}"), f"ok {version}")
            self.assertEqual(peer.ask("get B1"), f"val {2 * version}")
        self.assertEqual(peer.ask("walk"), "err 16 command")
        self.assertEqual(peer.ask("rows A1:B1"), "rows 1")
        self.assertEqual(peer.reply(), "199,398")

    def test_a_peer_on_a_pipe(self):
        with peers.on_pipes("run") as peer:
            self.assert_answered(peer)
            peer.stop_sending()
            self.assertEqual(peer.ended(), Ended(0))

    def test_a_peer_at_a_terminal(self):
        with peers.at_terminal("run") as peer:
            self.assert_answered(peer)
            peer.send(peers.END_OF_INPUT)
            self.assertEqual(peer.ended(), Ended(0))

    def test_a_last_line_at_a_terminal_without_line_feed(self):
        with peers.at_terminal("run") as peer:
            # typed after a line that isn't empty, the end of input first hands the line on, and then ends
            peer.send(b"get A1" + 2 * peers.END_OF_INPUT)
            self.assertEqual(peer.reply(), "val ")
            self.assertEqual(peer.ended(), Ended(0))

    def test_several_lines_are_answered_before_the_next_block(self):
        with peers.on_pipes("run") as peer:
            for block in range(50):
                peer.send(b"set A1 5\nget A1\n\nget B1\n")
                self.assertEqual([peer.reply() for _ in range(3)], [f"ok {block + 1}", "val 5", "val "])
            peer.stop_sending()
            self.assertEqual(peer.ended(), Ended(0))

    def test_a_line_may_come_in_pieces(self):
        with peers.on_pipes("run") as peer:
            for piece in (b"se", b"t A1 ", b"5", b"\nge", b"t A1"):
                peer.send(piece)
            self.assertEqual(peer.reply(), "ok 1")
            peer.send(b"\n")
            self.assertEqual(peer.reply(), "val 5")
            peer.stop_sending()
            self.assertEqual(peer.ended(), Ended(0))

    def test_a_reply_of_100_kb_is_whole_before_the_next_line(self):
        with peers.on_pipes("run") as peer:
            for _ in range(3):
                self.assertEqual(peer.ask("rows A1:CZ1024"), "rows 1024")
                self.assertEqual([peer.reply() for _ in range(1024)], ["," * 103] * 1024)
            peer.stop_sending()
            self.assertEqual(peer.ended(), Ended(0))


class Meeting(ProgramTest):
    def test_two_replicas_that_run_side_by_side_show_the_same_once_they_met(self):
        with peers.on_pipes("run") as first, peers.on_pipes("run", "--replica", "2") as second:
            for line, reply in (("set A1 apples", "ok 1"), ("set B1 @tally", "ok 2"), ("add B1 3", "ok 3")):
                self.assertEqual(first.ask(line), reply)
            for line, reply in (("set A1 pears", "ok 1"), ("set B1 @tally", "ok 2"), ("add B1 4", "ok 3")):
                self.assertEqual(second.ask(line), reply)
            of_first, of_second = first.ask("pull 0 16"), second.ask("pull 0 16")
            self.assertEqual(of_first, """delta 3 [["A1",[1,1,"'apples"],[],[]],["B1",[1,1,"@tally"],[[1,3,0]],[]]]""")
            self.assertEqual(of_second, """delta 3 [["A1",[1,2,"'pears"],[],[]],["B1",[1,2,"@tally"],[[2,4,0]],[]]]""")
            self.assertEqual(first.ask(of_second.replace("delta 3", "push")), "ok 4")
            self.assertEqual(second.ask(of_first.replace("delta 3", "push")), "ok 4")
            for peer in (first, second):
                self.assertEqual((peer.ask("get A1"), peer.ask("get B1")), ("val pears", "val 7"))
                peer.stop_sending()
                self.assertEqual(peer.ended(), Ended(0))
