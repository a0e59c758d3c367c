"""What the tests of stored questions share: whether a call that is wrong in one rule is told by them."""

import unittest


class ToldByQuestions(unittest.TestCase):
    """For the tests of one kind of questions, which set what is asked.

    `names` has the call of each first octet, `questions()` the stored questions, `answers(question)` the lines that answer one.
    """

    names = {}

    @staticmethod
    def questions():
        return []

    @staticmethod
    def answers(question):
        raise NotImplementedError

    @classmethod
    def setUpClass(cls):
        """The questions of each call, with their right lines."""
        cls.asked = {name: [] for name in cls.names.values()}
        for question in cls.questions():
            cls.asked[cls.names[question[0]]].append((question, cls.answers(question)))

    def told(self, call):
        """Whether some question of the call is answered otherwise than it must be."""
        return any(self.answers(question) != right for question, right in self.asked[call])

    def each(self, wrong_ones, *calls):
        for name, wrong in wrong_ones.items():
            with wrong():
                for call in calls:
                    with self.subTest(name, call=call):
                        self.assertTrue(self.told(call))
