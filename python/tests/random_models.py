"""Small models drawn at random: all kinds of numbers, weights, bounds, states, random variables, stops, alternatives, scenarios."""
from __future__ import annotations

import random
from decimal import Decimal
from fractions import Fraction

import model_support  # noqa: F401
from hydroplan.model import Model, between


class Draw:
    """Draws a model from a seed."""

    def __init__(self, seed: int) -> None:
        self.random = random.Random(seed)
        self.sense = self.random.choice(["minimize", "maximize"])
        self.states = [f"s{at}" for at in range(self.random.randint(0, 2))]

    def number(self, low=-20, high=20):
        """A number of one of the kinds that are read."""
        whole = self.random.randint(low, high)
        return self.random.choice([
            whole, whole + 0.5, float(whole) / 10, Decimal(whole) / 8, Fraction(whole, 3), f"{whole}.25", str(whole), 0.1 + whole,
        ])

    def weight(self):
        """A weight above 0."""
        return self.random.choice([1, 2, 5, 0.25, "0.3", "1/7", Fraction(2, 3), Decimal("0.1")])

    def model(self) -> Model:
        """The model: one to three stages, which their nodes share, and one or two nodes at each of as many layers."""
        model = Model({name: self.number() for name in self.states}, name=self.random.choice([None, "drawn"]))
        stages = [self.stage(model, f"stage {at}") for at in range(self.random.randint(1, 3))]
        layers = [[f"{at}{letter}" for letter in "ab"[: self.random.randint(1, 2)]] for at in range(self.random.randint(1, 3))]
        for at, layer in enumerate(layers):
            for name in layer:
                self.node(model, name, self.random.choice(stages), layers[at + 1] if at + 1 < len(layers) else [])
        model.root({name: self.weight() for name in layers[0]})
        if self.random.random() < 0.5:
            model.scenario([(layer[0], self.outcome(model.nodes[layer[0]].stage)) for layer in layers])
        return model

    def stage(self, model, name):
        """A stage with its states, up to three decisions and up to two random variables."""
        stage = model.stage(name)
        terms = []
        for state in self.states:
            found = stage.state(state, self.number(-40, -21), self.number(21, 40))
            terms += [found.incoming, found.outgoing]
        terms += [stage.variable(f"x{at}", self.number(-40, -21), self.number(21, 40)) for at in range(self.random.randint(1, 3))]
        terms += [stage.random(f"w{at}") for at in range(self.random.randint(0, 2))]
        for at in range(self.random.randint(1, 3)):
            self.row(stage, terms, self.random.choice([None, f"row {at}"]))
        if self.random.random() < 0.9:
            getattr(stage, self.sense)(self.sum(terms) + self.number())
        return stage

    def sum(self, terms):
        """A sum in which the first term has a coefficient of 2 or more; one coefficient in forty is large."""
        sizes = [self.random.choice([1] * 39 + [10**7]) for _ in terms]
        return self.random.randint(2, 9) * terms[0] + sum(size * (self.number() * it) for size, it in zip(sizes, terms[1:]))

    def row(self, stage, terms, name):
        """A constraint of one of the four kinds."""
        side = self.number() + self.random.choice([0, 1]) * terms[-1] if self.random.random() < 0.3 else self.number()
        left = self.sum(terms)
        stage.add(self.random.choice([
            lambda: left == side, lambda: left <= side, lambda: left >= side, lambda: between(self.number(-40, -21), left, self.number(21, 40)),
        ])(), name=name)

    def outcome(self, stage):
        """A value for each random variable."""
        return {it: self.number() for it in stage.randoms()}

    def node(self, model, name, stage, following):
        """A node; one realization in five has no weight, and where none has, it may have alternatives."""
        count = self.random.randint(1, 3)
        weights = [self.weight()] + [
            self.random.choice([self.weight(), 0]) if self.random.random() < 0.4 else self.weight() for _ in range(count - 1)
        ]
        realizations = [(weight, self.outcome(stage)) for weight in weights]
        alternatives = [[self.weight() for _ in weights]] if 0 not in weights and self.random.random() < 0.3 else []
        stop = self.random.choice([0, 0, self.weight()])
        model.node(name, stage, realizations, {it: self.weight() for it in following}, stop, alternatives)
