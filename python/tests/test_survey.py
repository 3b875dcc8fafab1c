"""Tests of the model of `--orders`."""

from __future__ import annotations

import json
import unittest
from typing import Dict

from deferreds.bounds import MOST_ORDERS, ORDERS
from deferreds.survey import (
    ONE_OUTCOME,
    SEVERAL_OUTCOMES,
    UNMET,
    Line,
    Run,
    lines_of,
    survey_of,
    too_many,
)

_FIRST, _SECOND, _THIRD = (((0, 0),), ()), (((1, 0),), ((0, 0),)), ((), ((0, 0), (1, 0)))


class Lines(unittest.TestCase):
    """What became of each Deferred of a run."""

    def test_a_deferred_is_known_by_its_name_and_its_place(self) -> None:
        output = 'new #0 d\nnote "#0 d ok 1"\n#0 d ok 1\n#1 - ok null\n#2 d unfired\n#3 - fail RuntimeError "so"\n#4 e ok "d 9"\n'
        self.assertEqual(
            [str(line) for line in lines_of(output)],
            ["d 1 ok 1", "- 1 ok null", "d 2 unfired", '- 2 fail RuntimeError "so"', 'e 1 ok "d 9"'],
        )

    def test_one_that_waits_names_the_other(self) -> None:
        output = '#0 d waiting #2\n#1 e paused waiting #0\n#2 d waiting #7\n#3 f ok "waiting #0"\n#4 g paused unfired\n'
        self.assertEqual(
            lines_of(output),
            [
                Line("d 1", "waiting d 2"),
                Line("e 1", "paused waiting d 1"),
                Line("d 2", "waiting -"),
                Line("f 1", 'ok "waiting #0"'),
                Line("g 1", "paused unfired"),
            ],
        )

    def test_a_text_may_hold_what_ends_lines_elsewhere(self) -> None:
        self.assertEqual(lines_of('#0 d ok "a\u2028#1 e"\n'), [Line("d 1", 'ok "a\u2028#1 e"')])


class Surveys(unittest.TestCase):
    """What is printed of the runs."""

    def test_deferreds_and_their_ends_stand_in_the_order_in_which_they_were_met(self) -> None:
        survey = survey_of(
            [
                Run(_FIRST, "#0 d ok 1\n#1 e unfired\n"),
                Run(_SECOND, "#0 f ok 2\n#1 d unfired\n", status=1),
                Run(_THIRD, "#0 d ok 1\n#1 e ok 2\n"),
            ]
        )
        self.assertEqual(
            survey.text(),
            "3 orders\n"
            "d 1 ok 1 in 2 orders, first [[[0,0]],[]]\n"
            "d 1 unfired in 1 order, first [[[1,0]],[[0,0]]]\n"
            "e 1 unfired in 1 order, first [[[0,0]],[]]\n"
            "e 1 ok 2 in 1 order, first [[],[[0,0],[1,0]]]\n"
            "f 1 ok 2 in 1 order, first [[[1,0]],[[0,0]]]\n"
            "outcome 1 in 1 order, first [[[0,0]],[]]\n"
            "outcome 2 in 1 order, first [[[1,0]],[[0,0]]]\n"
            "outcome 3 in 1 order, first [[],[[0,0],[1,0]]]\n"
            "stopped at the limit of the journal in 1 order, first [[[1,0]],[[0,0]]]\n"
            "3 orders, 3 outcomes\n",
        )
        self.assertEqual(survey.status, SEVERAL_OUTCOMES)

    def test_in_which_order_deferreds_were_made_makes_no_outcome(self) -> None:
        survey = survey_of([Run(_FIRST, "#0 d ok 1\n#1 e waiting #0\n"), Run(_SECOND, "#0 e waiting #1\n#1 d ok 1\n")])
        self.assertEqual(
            survey.text(),
            "2 orders\n"
            "d 1 ok 1 in 2 orders, first [[[0,0]],[]]\n"
            "e 1 waiting d 1 in 2 orders, first [[[0,0]],[]]\n"
            "outcome 1 in 2 orders, first [[[0,0]],[]]\n"
            "2 orders, 1 outcome\n",
        )
        self.assertEqual(survey.status, ONE_OUTCOME)

    def test_the_place_of_an_equal_name_does(self) -> None:
        survey = survey_of([Run(_FIRST, "#0 d ok 1\n#1 d ok 2\n"), Run(_SECOND, "#0 d ok 2\n#1 d ok 1\n")])
        self.assertEqual((survey.text().splitlines()[-1], survey.status), ("2 orders, 2 outcomes", SEVERAL_OUTCOMES))

    def test_one_order_has_one_outcome_though_there_is_no_deferred(self) -> None:
        survey = survey_of([Run(((),), "")])
        self.assertEqual((survey.text(), survey.status), ("1 order\noutcome 1 in 1 order, first [[]]\n1 order, 1 outcome\n", ONE_OUTCOME))

    def test_outcomes_and_stops_are_counted_apart(self) -> None:
        survey = survey_of([Run(_FIRST, ""), Run(_SECOND, "#0 d ok 1\n", status=1), Run(_THIRD, "", status=1)])
        self.assertEqual(
            survey.text().splitlines()[2:],
            [
                "outcome 1 in 2 orders, first [[[0,0]],[]]",
                "outcome 2 in 1 order, first [[[1,0]],[[0,0]]]",
                "stopped at the limit of the journal in 2 orders, first [[[1,0]],[[0,0]]]",
                "3 orders, 2 outcomes",
            ],
        )

    def test_what_is_unmet_in_an_order_decides_the_status(self) -> None:
        survey = survey_of([Run(_FIRST, ""), Run(_SECOND, "", status=8), Run(_THIRD, "", status=8)])
        self.assertEqual((survey.text().splitlines()[2:], survey.status), (["unmet in 2 orders, first [[[1,0]],[[0,0]]]", "3 orders, 1 outcome"], UNMET))
        self.assertEqual(
            survey.json_lines().splitlines()[2:],
            [
                '{"batches":[[[1,0]],[[0,0]]],"count":2,"sample":null,"type":"unmet"}',
                '{"orders":3,"outcomes":1,"sample":null,"stopped":0,"type":"end","unmet":2}',
            ],
        )

    def test_a_sample_is_counted_apart_from_the_orders_it_is_drawn_from(self) -> None:
        survey = survey_of([Run(_SECOND, "#0 d ok 1\n"), Run(_FIRST, "#0 d ok 2\n"), Run(_SECOND, "#0 d ok 1\n")], drawn_from=1)
        self.assertEqual(
            survey.text(),
            "1 order, a sample of 3\n"
            "d 1 ok 1 in 2 sampled orders, first [[[1,0]],[[0,0]]]\n"
            "d 1 ok 2 in 1 sampled order, first [[[0,0]],[]]\n"
            "outcome 1 in 2 sampled orders, first [[[1,0]],[[0,0]]]\n"
            "outcome 2 in 1 sampled order, first [[[0,0]],[]]\n"
            "3 sampled orders, 2 outcomes\n",
        )


def _told(*deferreds: Dict[str, object]) -> str:
    """What `--json --batches` prints of these Deferreds, and of nothing else."""
    keys = {"type": "deferred", "pauses": 0, "state": "unfired", "value": None, "waits_for": None, "fired_by": None}
    lines = [{"type": "start", "version": 1}, *({**keys, **deferred} for deferred in deferreds), {"type": "end"}]
    return "".join(json.dumps(line) + "\n" for line in lines)


class JsonLines(unittest.TestCase):
    """What is printed of the runs as JSON."""

    def test_each_line_of_a_deferred_has_the_keys_of_the_first_of_its_orders(self) -> None:
        failure = {"fail": "ValueError", "message": "\u00fc\n"}
        survey = survey_of(
            [
                Run(_FIRST, "#0 d paused unfired\n", told=_told({"name": "d", "number": 0, "pauses": 1})),
                Run(
                    _SECOND,
                    '#0 d fail ValueError "\u00fc\\n"\n',
                    1,
                    _told({"name": "d", "number": 0, "state": "fail", "value": failure, "fired_by": 3}),
                ),
                Run(_THIRD, "#0 d paused unfired\n", told=_told({"name": "d", "number": 0, "pauses": 2})),
            ]
        )
        self.assertEqual(
            survey.json_lines(),
            '{"orders":3,"sample":null,"type":"orders"}\n'
            '{"batches":[[[0,0]],[]],"count":2,"deferred":{"name":"d","place":1},"paused":true,"sample":null,"state":"unfired",'
            '"type":"deferred","value":null,"waits_for":null}\n'
            '{"batches":[[[1,0]],[[0,0]]],"count":1,"deferred":{"name":"d","place":1},"paused":false,"sample":null,"state":"fail",'
            '"type":"deferred","value":{"fail":"ValueError","message":"\u00fc\\n"},"waits_for":null}\n'
            '{"batches":[[[0,0]],[]],"count":2,"outcome":1,"sample":null,"type":"outcome"}\n'
            '{"batches":[[[1,0]],[[0,0]]],"count":1,"outcome":2,"sample":null,"type":"outcome"}\n'
            '{"batches":[[[1,0]],[[0,0]]],"count":1,"sample":null,"type":"stopped"}\n'
            '{"orders":3,"outcomes":2,"sample":null,"stopped":1,"type":"end","unmet":0}\n',
        )

    def test_each_line_of_a_sample_has_its_size(self) -> None:
        survey = survey_of([Run(_FIRST, ""), Run(_FIRST, "")], drawn_from=6)
        self.assertEqual(
            survey.json_lines(),
            '{"orders":6,"sample":2,"type":"orders"}\n'
            '{"batches":[[[0,0]],[]],"count":2,"outcome":1,"sample":2,"type":"outcome"}\n'
            '{"orders":2,"outcomes":1,"sample":2,"stopped":0,"type":"end","unmet":0}\n',
        )

    def test_one_that_waits_names_the_other_by_its_place(self) -> None:
        waits = {"state": "waiting", "waits_for": {"name": None, "number": 1}}
        told = _told({"name": None, "number": 0}, {"name": None, "number": 1}, {"name": "d", "number": 2, **waits})
        survey = survey_of([Run(((),), "#0 - unfired\n#1 - unfired\n#2 d waiting #1\n", told=told)])
        lines = [json.loads(line) for line in survey.json_lines().splitlines()]
        self.assertEqual([line["deferred"] for line in lines[1:3]], [{"name": None, "place": 1}, {"name": None, "place": 2}])
        self.assertEqual(lines[3]["waits_for"], {"name": None, "place": 2})


class TooMany(unittest.TestCase):
    """What is said where there are more orders than may run."""

    def test_the_number_is_said_up_to_that_of_64_bits(self) -> None:
        most = 2**64 - 2
        self.assertEqual(
            too_many(most, ORDERS),
            f"18446744073709551614 orders are more than the {ORDERS} that may run, and --most allows {MOST_ORDERS} at most; "
            "--sample K --seed S draws some",
        )
        self.assertEqual(too_many(most + 1, 5), "more orders than 64 bits count, and --most allows 1000000 at most")
        self.assertEqual(
            too_many(6, 5), "6 orders are more than the 5 that may run; --most 6 allows them, --sample K --seed S draws some"
        )


if __name__ == "__main__":
    unittest.main()
