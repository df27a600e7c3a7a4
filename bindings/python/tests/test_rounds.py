"""Goals that are made known in rounds."""

import unittest

from mirfodwel import Session, solve

from .cases import random_rules
from .test_sessions import table_of


class Rounds(unittest.TestCase):
    def test_rounds_agree_with_tables(self):
        rounds = 0
        for seed in range(150):
            rules = random_rules(seed, 80)
            with Session(table_of(rules)) as session:
                whole = session.ask(0, 80)
                came = solve(0, rules.__getitem__, 80)
            rounds = max(rounds, came.rounds)
            with self.subTest(seed=seed):
                if came.answer.outcome in ("yes", "no"):
                    self.assertTrue(came.answer.graph.check())
                    self.assertNotEqual({came.answer.outcome, whole.outcome}, {"yes", "no"})
                else:
                    self.assertEqual((came.answer.outcome, came.wanted), (whole.outcome, []))
        self.assertGreater(rounds, 1)

    def test_endless_goals(self):
        seen = []
        came = solve(0, lambda number: [[("i", number + 1)]], 500, progress=seen.append)
        self.assertEqual((came.answer.outcome, came.answer.limits_met, came.wanted), ("maybe", True, []))
        self.assertEqual([each.rounds for each in seen], list(range(1, came.rounds + 1)))
        self.assertTrue(came.rounds <= 7 and came.known <= 1024)
        ends = solve(0, lambda number: [[("i", number + 1)]] if number < 300 else [[]], 500)
        self.assertEqual((ends.answer.outcome, len(ends.answer.graph.nodes)), ("yes", 301))
        self.assertTrue(ends.answer.graph.check())

    def test_what_is_known_is_not_worked_out_again(self):
        def runs(leaves):
            def candidates(goal):
                kind, number = goal
                if kind == "leaf":
                    return [[("i", ("leaf", each)) for each in (2 * number, 2 * number + 1) if each < leaves]]
                return [[*([("i", ("leaf", 1))] if number == 0 else []), *([("i", ("link", number + 1))] if number < 200 else [])]]

            seen = []
            self.assertEqual(solve(("link", 0), candidates, 300, progress=seen.append).answer.outcome, "yes")
            return len(seen), [each.answer.runs for each in seen]

        rounds, few = runs(2)
        more_rounds, many = runs(60)
        # The leaves are known before the links are, and the last round starts the links alone.
        self.assertTrue(rounds > 3 and more_rounds > 3)
        self.assertEqual(few[-1], many[-1])
        self.assertLess(many[-1], 210)

    def test_a_bound_on_goals(self):
        calls = []
        came = solve("", lambda word: calls.append(word) or [[("c", word + "a"), ("c", word + "b")]], 10**6, most_goals=100)
        self.assertEqual((came.answer.outcome, came.known, len(set(calls)), len(calls)), ("maybe", 100, 100, 100))
        self.assertTrue(came.wanted)

    def test_goals_that_stay_unknown(self):
        came = solve(0, lambda number: None if number == 3 else [[("i", number + 1)]], 50)
        self.assertEqual((came.answer.outcome, came.wanted), ("maybe", []))

    def test_what_is_raised_ends_it(self):
        def interrupt(_):
            raise KeyboardInterrupt

        self.assertRaises(KeyboardInterrupt, solve, 0, lambda number: [[("i", number + 1)]], 10**6, progress=interrupt)
        self.assertRaises(ZeroDivisionError, solve, 0, lambda number: 1 // 0, 5)
        self.assertRaises(ValueError, solve, 0, lambda number: [[("x", 1)]], 5)
