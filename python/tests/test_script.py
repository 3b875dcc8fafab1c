"""Which scripts are refused, and with which reason."""

from __future__ import annotations

import json
import unittest

from deferreds.twisted.classes import BUILT_IN
from deferreds.twisted.script import Refused, nodes, read


def refusal(text: str | bytes) -> int:
    """The number of the reason, or 0."""
    data = text if isinstance(text, bytes) else text.encode()
    try:
        read(data, list(BUILT_IN))
    except Refused as refused:
        return refused.reason[0]
    return 0


def with_events(*events: object) -> str:
    """A script of these events."""
    return json.dumps({"version": 1, "events": list(events)})


def with_pools(pools: object, *events: object) -> str:
    """A script of version 2, of these pools and events."""
    return json.dumps({"version": 2, "pools": pools, "events": list(events)})


class Refusals(unittest.TestCase):
    """Each reason at its edge."""

    def test_the_least_reason_is_told(self) -> None:
        self.assertEqual(refusal('{"version":7,"events":[["nope"]]}'), 3)
        self.assertEqual(refusal(with_events(["callback", "a b", 1], ["nope"])), 4)
        self.assertEqual(refusal(with_events(["errback", "a b", "Zed", ""])), 6)

    def test_a_script_has_1048576_bytes_at_most(self) -> None:
        script = with_events()
        self.assertEqual(refusal(script + " " * (1_048_576 - len(script))), 0)
        self.assertEqual(refusal(script + " " * (1_048_577 - len(script))), 1)

    def test_version_3_is_the_first_that_expects_something(self) -> None:
        for version, number in ((1, 4), (2, 4), (3, 0)):
            with self.subTest(version):
                self.assertEqual(refusal('{"version":%d,"events":[["expect","d",["unfired"]]]}' % version), number)
        self.assertEqual(refusal('{"version":3,"events":[["maybe","d",{"do":[["expect","d",["unfired"]]]}]]}'), 4)

    def test_version_3_is_the_first_that_repeats_events(self) -> None:
        for version, number in ((1, 4), (2, 4), (3, 0)):
            with self.subTest(version):
                self.assertEqual(refusal('{"version":%d,"events":[["repeat",2,[["note","a"]]]]}' % version), number)
        self.assertEqual(refusal('{"version":3,"events":[["maybe","d",{"do":[["repeat",2,[]]]}]]}'), 4)

    def test_what_repeats_counts_as_often_as_it_happens(self) -> None:
        for times, number in ((249_998, 0), (249_999, 5)):
            with self.subTest(times):
                self.assertEqual(refusal('{"version":3,"events":[["repeat",%d,[["note","a"]]]]}' % times), number)
        for times, number in ((1_000, 0), (1_001, 5)):
            with self.subTest(times):
                advance = '["advance",1000000000000]'
                self.assertEqual(refusal('{"version":3,"events":[["repeat",%d,[%s]]]}' % (times, advance)), number)

    def test_a_text_that_repeats_counts_by_its_bytes(self) -> None:
        for size, number in ((63, 0), (64, 5)):
            with self.subTest(size):
                self.assertEqual(refusal('{"version":3,"events":[["repeat",249998,[["note","%s"]]]]}' % ("a" * size)), number)

    def test_a_long_script_says_version_3(self) -> None:
        for version, number in (("1", 1), ("2", 1), ("3", 0), ("4", 1), ("3.0", 1), ("[3]", 1)):
            with self.subTest(version):
                script = f'{{"version":{version},"events":[]}}'
                self.assertEqual(refusal(script.ljust(1_048_577)), number)
        self.assertEqual(refusal('{"version":3,"events":['.ljust(1_048_577)), 1)

    def test_the_limit_of_version_3(self) -> None:
        for version, limit, number in ((2, 200_001, 4), (3, 200_001, 0), (3, 10_000_000, 0), (3, 10_000_001, 4)):
            with self.subTest(version=version, limit=limit):
                self.assertEqual(refusal(f'{{"version":{version},"limit":{limit},"events":[]}}'), number)

    def test_the_nodes_of_version_3(self) -> None:
        script = '{"version":%d,"events":[["callback","d",[%s]]]}'
        self.assertEqual(refusal(script % (2, ",".join("0" * 65_530))), 5)
        self.assertEqual(refusal(script % (3, ",".join("0" * 65_530))), 0)

    def test_what_is_no_json(self) -> None:
        for text in ("", "{", "[1e400]", "[NaN]", b'["\xff"]', '["\\ud800"]', '["\\ud800x"]'):
            with self.subTest(text):
                self.assertEqual(refusal(text), 2)

    def test_a_lost_value_has_to_be_readable_too(self) -> None:
        self.assertEqual(refusal('{"version":["\\ud800"],"version":1,"events":[]}'), 2)
        self.assertEqual(refusal('{"version":["x"],"version":1,"events":[]}'), 0)

    def test_nesting_ends_at_127(self) -> None:
        self.assertEqual(refusal("[" * 127 + "]" * 127), 3)
        self.assertEqual(refusal("[" * 128 + "]" * 128), 2)
        self.assertEqual(refusal('["' + "[" * 200 + '"]'), 3)

    def test_a_version_is_the_integer_1_2_or_3(self) -> None:
        for version in ("1.0", "2.0", "true", "-0", "0", '"1"', "[1]", "4"):
            with self.subTest(version):
                self.assertEqual(refusal(f'{{"version":{version},"events":[]}}'), 3)
        for version in ("1", "2", "3"):
            self.assertEqual(refusal(f'{{"version":{version},"events":[]}}'), 0)

    def test_numbers_outside_their_ranges(self) -> None:
        for event in (
            ["semaphore", "s", 0],
            ["semaphore", "s", 65_537],
            ["queue", "q", None, -1],
            ["later", "c", 10**12 + 1, {}],
            ["addTimeout", "d", -1],
            ["addTimeout", "d", 10**12 + 1],
            ["addTimeout", "d"],
            ["loop", "p", "d", 0, True, {}],
            ["callback", "d", 2**63],
            ["callback", "d", 1.5],
            ["drain", 2_049],
        ):
            with self.subTest(event):
                self.assertEqual(refusal(with_events(event)), 4)

    def test_an_inline_body_ends_by_no_wait(self) -> None:
        self.assertEqual(refusal(with_events(["inline", "d", [["end", ["wait", "e"]]]])), 4)
        self.assertEqual(refusal(with_events(["inline", "d", [["end", ["pass"]]]])), 0)

    def test_advances_sum_to_10_to_the_15_at_most(self) -> None:
        self.assertEqual(refusal(with_events(["advance", 10**15])), 0)
        self.assertEqual(refusal(with_events(["advance", 10**15], ["advance", 1])), 5)

    def test_names(self) -> None:
        self.assertEqual(refusal(with_events(["deferred", "@"])), 6)
        self.assertEqual(refusal(with_events(["callback", "@", 1])), 0)
        self.assertEqual(refusal(with_events(["deferred", "n" * 32])), 0)
        self.assertEqual(refusal(with_events(["deferred", "n" * 33])), 6)
        self.assertEqual(refusal(with_events(["deferred", "\u0661"])), 6)

    def test_names_of_version_3_have_marks_after_the_first(self) -> None:
        for name in ("a-b", "a.b", "a:b", "0-.:"):
            for version, number in ((1, 6), (2, 6), (3, 0)):
                with self.subTest(name, version=version):
                    script = json.dumps({"version": version, "events": [["deferred", name]]})
                    self.assertEqual(refusal(script), number)
        for name in ("-", "-a", ".a", ":a", "a/b", "n" * 32 + "-"):
            with self.subTest(name):
                self.assertEqual(refusal(json.dumps({"version": 3, "events": [["deferred", name]]})), 6)

    def test_comments_are_texts_of_version_3(self) -> None:
        commented = (
            '"comment":%s,"events":[]',
            '"cooperator":{"units":1,"delay":1,"comment":%s},"events":[]',
            '"callers":[[{"comment":%s}]],"events":[]',
            '"events":[["deferred","d",{"do":[["maybe","m",{"comment":%s}]]}]]',
        )
        for frame in commented:
            for version, comment, number in ((1, '"x"', 4), (2, '"x"', 4), (3, '"x"', 0), (3, "1", 4), (3, "[]", 4)):
                with self.subTest(frame, version=version, comment=comment):
                    self.assertEqual(refusal(f'{{"version":{version},{frame % comment}}}'), number)

    def test_classes(self) -> None:
        self.assertEqual(refusal(with_events(["errback", "d", "Zed", ""])), 7)
        script = '{"version":1,"classes":[%s],"events":[]}'
        self.assertEqual(refusal(script % '["A","ValueError"],["B","A"]'), 0)
        self.assertEqual(refusal(script % '["A","B"],["B","Exception"]'), 7)
        self.assertEqual(refusal(script % '["TimeoutError","Exception"]'), 7)
        self.assertEqual(refusal(script % '["Mine","TimeoutError"]'), 0)
        self.assertEqual(refusal(with_events(["errback", "d", "TimeoutError", ""])), 0)

    def test_a_timer_has_a_time_from_0_to_10_to_the_12(self) -> None:
        self.assertEqual(refusal(with_events(["addTimeout", "d", 0], ["addTimeout", "d", 10**12])), 0)
        self.assertEqual(refusal(with_events(["addTimeout", "a b", 0])), 6)

    def test_version_1_has_no_pools(self) -> None:
        submitted = ["threadIn", "a", "io", 1, ["value", 1]]
        nested = ["inline", "d", [["try", [], [], [["do", submitted]]]]]
        for event in (submitted, ["deferred", "d", {"do": [submitted]}], nested):
            with self.subTest(event):
                self.assertEqual(refusal(with_events(event)), 4)
                self.assertEqual(refusal(with_pools([["io", 1]], event)), 0)
        self.assertEqual(refusal('{"version":1,"pools":[],"events":[]}'), 4)

    def test_versions_1_and_2_reset_no_calls(self) -> None:
        for action in (["resetCall", "c", 0], ["delayCall", "c", 10**12]):
            nested = ["inline", "d", [["try", [], [], [["do", action]]]]]
            for event in (action, ["deferred", "d", {"do": [action]}], nested):
                for version, number in ((1, 4), (2, 4), (3, 0)):
                    with self.subTest(event, version=version):
                        self.assertEqual(refusal(json.dumps({"version": version, "events": [event]})), number)

    def test_what_is_no_pool(self) -> None:
        for pool in ("io", ["io"], ["io", 1, 1], [1, "io"], ["io", 17], ["io", -1], ["io", True]):
            with self.subTest(pool):
                self.assertEqual(refusal(with_pools([pool])), 4)
        self.assertEqual(refusal(with_pools({})), 4)
        self.assertEqual(refusal(with_pools([["io", 0], ["net", 16]])), 0)

    def test_a_script_has_4_pools_at_most(self) -> None:
        pools = [[name, 1] for name in "abcd"]
        self.assertEqual(refusal(with_pools(pools)), 0)
        self.assertEqual(refusal(with_pools(pools + [["a", 1]])), 5)

    def test_names_of_pools(self) -> None:
        self.assertEqual(refusal(with_pools([["a b", 1], ["a b", 1]])), 6)
        self.assertEqual(refusal(with_pools([["@", 1]])), 6)
        self.assertEqual(refusal(with_pools([], ["threadIn", "a", "@", 1, ["value", 1]])), 6)

    def test_a_pool_is_declared_once_and_used_by_its_name(self) -> None:
        self.assertEqual(refusal(with_pools([["io", 1], ["net", 1], ["io", 2]])), 9)
        self.assertEqual(refusal(with_pools([["io", 1]], ["threadIn", "a", "IO", 1, ["value", 1]])), 9)
        unknown = ["threadIn", "a", "gpu", 1, ["raise", "Zed", ""]]
        self.assertEqual(refusal(with_pools([["io", 1], ["io", 1]], unknown)), 7)

    def test_keys_are_no_nodes(self) -> None:
        self.assertEqual(nodes({"a": [1, None], "b": {}}), 5)


if __name__ == "__main__":
    unittest.main()
