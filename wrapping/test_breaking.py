"""Tests of where a line of terms is broken, at a width at which one can see it."""

from __future__ import annotations

import unittest
from typing import List

from breaking import broken


class Breaks(unittest.TestCase):
    """A line and what it becomes. The lines on the right are those that `rt fmt` leaves as they are."""

    def becomes(self, text: str, lines: List[str], width: int = 40, indent: int = 0, onward: int = 4) -> None:
        self.assertEqual(lines, broken(text, indent, onward, width))

    def test_a_type_is_broken_before_its_arrows(self) -> None:
        self.becomes("name : (a : A) (b : B) → Is a b → (Is b a → Is a a) → Is b b", [
            "name : (a : A) (b : B) → Is a b",
            "    → (Is b a → Is a a) → Is b b",
        ])

    def test_binders_that_are_too_long_are_broken_between_two(self) -> None:
        self.becomes("name : (first second : List ℕ) (third fourth : List ℕ) → A", [
            "name : (first second : List ℕ)",
            "    (third fourth : List ℕ) → A",
        ])

    def test_an_equation_is_broken_behind_its_sign_first(self) -> None:
        self.becomes("f a b c = first_step a b ∙ second_step b c", [
            "f a b c =",
            "    first_step a b ∙ second_step b c",
        ])
        self.becomes("f a b c = first_step a b ∙ second_step b c ∙ third_step a", [
            "f a b c =",
            "    first_step a b ∙ second_step b c",
            "    ∙ third_step a",
        ])

    def test_arguments_stay_with_their_brackets(self) -> None:
        self.becomes("subst (λ x. Is x (first a)) (sym (same b)) here", [
            "    subst (λ x. Is x (first a))",
            "    (sym (same b)) here",
        ], indent=4)

    def test_a_record_and_a_tuple_go_part_by_part(self) -> None:
        self.becomes("f a = record { first = one a; second = two (a, b) }", [
            "f a = record {",
            "  first = one a;",
            "  second = two (a, b);",
            "}",
        ])
        self.becomes("ruleset all = (first_lemma, second_lemma, third_lemma)", [
            "ruleset all = (",
            "  first_lemma,",
            "  second_lemma,",
            "  third_lemma,",
            ")",
        ])

    def test_a_record_of_a_name_or_a_term(self) -> None:
        self.becomes("f = record (g b) { first = one; second = two }", [
            "f = record (g b) {",
            "  first = one;",
            "  second = two;",
            "}",
        ])

    def test_cases_begin_with_a_bar(self) -> None:
        self.becomes("f a = elim (is a) [ inl h ↦ first h | inr k ↦ second k ]", [
            "f a = elim (is a) [",
            "  | inl h ↦ first h",
            "  | inr k ↦ second k",
            "]",
        ])

    def test_nothing_is_broken_in_binders_patterns_and_implicit_arguments(self) -> None:
        for text in (
            "λ (first_part, second_part, third_part, fourth).",
            "f {x = first_function second third fourth fifth}",
            "let (first_part, second_part, third_part, x) =",
        ):
            self.becomes(text, [text], width=20)

    def test_no_bracket_is_left_alone(self) -> None:
        self.becomes("let a = first_step in (first_part of a, second_part of this)", [
            "    let a = first_step in (",
            "      first_part of a,",
            "      second_part of this,",
            "    )",
        ], indent=4)

    def test_no_operator_ends_a_line_or_is_left_alone(self) -> None:
        self.becomes("name : first_type a b → second_type a b c →", [
            "name : first_type a b",
            "    → second_type a b c →",
        ])

    def test_a_text_a_comment_and_a_block_are_left(self) -> None:
        for text in (
            "f = do a ← first_step; second_step a; third a",
            "f = first_step second_step third_step -- why",
            'f = first "a text that is open',
        ):
            self.becomes(text, [text], width=20)

    def test_words_of_a_text_are_one(self) -> None:
        self.becomes('function = codes "a text of some words that is long"', [
            "function =",
            '    codes "a text of some words that is long"',
        ], width=46)

    def test_a_clause(self) -> None:
        self.becomes("ensures ok { OnOk result (new ≡ with old) }", [
            "    ensures ok { OnOk result",
            "        (new ≡ with old) }",
        ], indent=4, onward=8)

    def test_the_marks_and_the_name_stay_together(self) -> None:
        self.becomes("pub record Pair (first : List ℕ) (second : List ℕ) : Type 0 where", [
            "pub record Pair (first : List ℕ)",
            "    (second : List ℕ) : Type 0 where",
        ])


if __name__ == "__main__":
    unittest.main()
