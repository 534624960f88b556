"""What is measured by turns, and what is said of it."""
import contextlib
import io
import re
import shutil
import sys
import unittest

import running

import costs
import datagrams
import turns

SLOW = "x = sum(range({}))"


def python(program):
    return [sys.executable, "-c", program]


class Turns(unittest.TestCase):
    def test_commands_run_one_after_another_and_the_least_counts(self):
        asked, taken = [], {"before": iter([3.0, 1.0, 2.0]), "now": iter([0.5, 0.7, 0.2])}

        def command(name):
            asked.append(name)
            return next(taken[name])

        self.assertEqual(turns.least([lambda: command("before"), lambda: command("now")], 3), [1.0, 0.2])
        self.assertEqual(asked, ["before", "now"] * 3)

    def test_processor_time_is_that_of_the_child(self):
        waits, works = (turns.used(python(program), "/tmp") for program in ("import time; time.sleep(1)", SLOW.format(20_000_000)))
        self.assertLess(waits, 0.9)
        self.assertLess(waits, works)

    def test_a_failure_ends_the_script(self):
        self.assertGreater(turns.used(python("raise SystemExit(7)"), "/tmp"), 0)
        with self.assertRaisesRegex(SystemExit, "ended with 3"):
            turns.used(python("raise SystemExit(3)"), "/tmp")

    @unittest.skipUnless(shutil.which("time"), "GNU time isn't here")
    def test_memory_is_that_of_the_command(self):
        self.assertGreater(turns.held(python("x = b'x' * (1 << 26)"), "/tmp"), 64)
        self.assertLess(turns.held(["true"], "/tmp"), 8)

    @unittest.skipUnless(shutil.which("time"), "GNU time isn't here")
    def test_a_table_names_both_the_ratio_and_the_machine(self):
        printed = io.StringIO()
        with contextlib.redirect_stdout(printed):
            turns.table([turns.Job("a job", ("-c", "pass"), size=10**6)], [sys.executable] * 2, "/tmp", 1)
        self.assertRegex(printed.getvalue(), r"\| a job \| 1\.0 \| [0-9.]+ \| [0-9.]+ \| [0-9.]+ \|  \|  \| [0-9.]+ \| [0-9.]+ \|")
        self.assertRegex(printed.getvalue(), re.compile(r"^Processor time, the least of 1 turns \(a peer's of 1\)\. .* GHz, \d+ processors; the load was", re.MULTILINE))


class Costs(unittest.TestCase):
    def test_the_packets_are_ones_that_a_capture_may_have(self):
        for case in (costs.far_ahead(("receive",), 60), costs.many_items(("show",), costs.MOST_PACKET)):
            for packet in (*case.first, *case.hostile, *case.usual[:9], *case.lined[:9]):
                self.assertTrue(datagrams.is_packet(packet), packet[:20])
        self.assertTrue(all(datagrams.is_packet(costs.sufficient(number, k)) for k in (1, 2, 8) for number in range(costs.FRAGMENTS)))

    def test_lines_are_told_apart_from_the_rest(self):
        case = costs.Case("it", ("receive",), [], [b"12"], [b"12"] * 10, [b"12"] * 10)
        found = costs.cost(case, {"first": 1.0, "usual": 2.0, "lined": 4.0, "hostile": 11.0}, {"first": 0, "usual": 100, "lined": 200, "hostile": 410})
        self.assertAlmostEqual(found.usual, 0.1)
        self.assertAlmostEqual(found.hostile, 10)
        self.assertAlmostEqual(found.lines, 400 * 0.2 / 10)


if __name__ == "__main__":
    unittest.main()
