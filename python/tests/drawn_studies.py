"""Studies drawn by hypothesis, each compared with its extensive form: a wrong one is made smaller, feature by feature."""
from __future__ import annotations

import tempfile
from collections import Counter
from pathlib import Path

from hypothesis import HealthCheck, given, settings
from hypothesis.strategies import composite, integers

from random_studies import StudyDraw, write_study
from study_optima import compared
from hydroplan.study import StudyError

STEPS = 1 << 12
TOO_COARSE = "RoundedTooFar"


class WrongStudy(AssertionError):
    """A study that does not mean what it says: what is wrong, and its files by their names."""

    def __init__(self, fault, files):
        super().__init__(fault + "\n" + "\n".join(f"# {name}\n{text}" for name, text in files.items()))
        self.files = files


class Drawing:
    """What a draw asks of `random.Random`, by hypothesis: each number evenly, and the simplest has the fewest features."""

    def __init__(self, draw):
        self.draw = draw

    def random(self):
        """A number from 0 on, below 1; the simplest is near 1, so that a feature is not there."""
        return (STEPS - 1 - self.draw(integers(0, STEPS - 1))) / STEPS

    def randint(self, low, high):
        """A whole number, the least and the greatest among them."""
        return self.draw(integers(low, high))

    def choice(self, things):
        """One of several."""
        return things[self.randint(0, len(things) - 1)]

    def shuffle(self, things):
        """Puts a list in another order."""
        for at in range(len(things) - 1, 0, -1):
            other = at - self.randint(0, at)
            things[at], things[other] = things[other], things[at]


@composite
def studies(draw):
    """The files of a study."""
    return StudyDraw(Drawing(draw)).draw()


def compared_studies(count, own_words, decorate=lambda test: test, **chosen):
    """Compares so many studies: how many ended how. WrongStudy has the smallest study found that does not mean what it says.

    `own_words` gives further words that are counted of what is known of a study.
    """
    found = Counter()

    @decorate
    @settings(max_examples=count, deadline=None, database=None, print_blob=False, suppress_health_check=list(HealthCheck), **chosen)
    @given(studies())
    def one(files):
        known = comparison(files)
        found.update(["too coarse"] if known is None else [known.ending(), known.rounded, *own_words(known)])
        fault = "" if known is None else known.fault()
        if fault:
            raise WrongStudy(fault, files)

    one()
    return found


def comparison(files):
    """What is known of a study, none where its numbers are refused, since they would be rounded too far."""
    with tempfile.TemporaryDirectory() as made:
        write_study(Path(made), files)
        try:
            return compared(Path(made))
        except StudyError as refused:
            assert TOO_COARSE in str(refused), refused
            return None
