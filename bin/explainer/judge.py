"""Which conditions an answer fails, by exact arithmetic on the model's own rows."""

from fractions import Fraction

from .answers import escaped
from .numbers import both


def cone(numbers, is_sum):
    """Whether the first number is at least the largest magnitude of the others, or their sum."""
    sizes = [abs(number) for number in numbers[1:]]
    return numbers[0] >= (sum(sizes, Fraction(0)) if is_sum else max(sizes, default=numbers[0]))


def holds(sets, numbers):
    """Whether numbers are in a set."""
    kind, bounds = sets
    first = numbers[0]
    return {
        "LessThan": lambda: first <= bounds[0],
        "GreaterThan": lambda: first >= bounds[0],
        "EqualTo": lambda: first == bounds[0],
        "Interval": lambda: bounds[0] <= first <= bounds[1],
        "Reals": lambda: True,
        "Zeros": lambda: not any(numbers),
        "Nonnegatives": lambda: min(numbers) >= 0,
        "Nonpositives": lambda: max(numbers) <= 0,
        "NormInfinityCone": lambda: cone(numbers, False),
        "NormOneCone": lambda: cone(numbers, True),
    }[kind]()


def recession(sets):
    """The set of a ray: the set with its numbers 0."""
    return sets[0], tuple(Fraction(0) for _ in sets[1])


DUALS = {
    "LessThan": ("Nonpositives", "at most 0"), "GreaterThan": ("Nonnegatives", "at least 0"),
    "EqualTo": ("Reals", ""), "Interval": ("Reals", ""), "Reals": ("Zeros", "0"), "Zeros": ("Reals", ""),
    "Nonnegatives": ("Nonnegatives", "at least 0"), "Nonpositives": ("Nonpositives", "at most 0"),
    "NormInfinityCone": ("NormOneCone", "in normone"), "NormOneCone": ("NormInfinityCone", "in norminf"),
}


def least(sets, duals):
    """The least product of the duals with what is in the set: its number times the dual."""
    kind, bounds = sets
    if kind == "Interval":
        return bounds[0 if duals[0] >= 0 else 1] * duals[0]
    return bounds[0] * duals[0] if bounds else Fraction(0)


def said(sets):
    """A set as the script writes it."""
    kind, bounds = sets
    sign = {"LessThan": "<=", "GreaterThan": ">=", "EqualTo": "==", "Interval": "in"}.get(kind, kind)
    return " ".join([sign, *map(str, bounds)])


def listed(numbers):
    return " ".join(map(both, numbers))


class Judge:
    """An answer to a model, and the conditions that it fails."""

    def __init__(self, model, answer):
        self.model, self.answer, self.failed = model, answer, []

    def items(self):
        """Each row and each group: how it is called, its functions, its set and its duals."""
        for place, row in enumerate(self.model.rows):
            duals = self.answer.row_duals[place] if self.answer.row_duals else None
            yield f"row {escaped(row.name)}", row.functions, row.set, duals
        for group in self.model.groups:
            duals = [self.answer.duals[name] for name in group.functions] if self.answer.duals else None
            yield "var " + " ".join(map(escaped, group.functions)), group.functions, group.set, duals

    def at(self, functions, numbers, is_ray=False):
        """What functions are at a point, or along a ray; a group's are its variables."""
        def one(of):
            if isinstance(of, str):
                return numbers[of]
            return of.slope(numbers) if is_ray else of.value(numbers)
        return [one(of) for of in functions]

    def point(self):
        for name, functions, sets, _ in self.items():
            values = self.at(functions, self.answer.point)
            if not holds(sets, values):
                self.failed.append(f"{name}: at the point it is {listed(values)}, which isn't {said(sets)}")

    def signs(self):
        for name, _, sets, duals in self.items():
            kind, words = DUALS[sets[0]]
            if not holds((kind, ()), duals):
                self.failed.append(f"{name}: its dual is {listed(duals)}, and in {said(sets)} it must be {words}")

    def adjoints(self, is_optimal):
        """The dual of each variable is what the objective and the rows' duals leave for it."""
        sums = {name: Fraction(0) for name in self.model.variables}
        for row, duals in zip(self.model.rows, self.answer.row_duals):
            for of, dual in zip(row.functions, duals):
                for name, number in of.terms.items():
                    sums[name] += number * dual
        for name, total in sums.items():
            cost = self.model.objective.terms.get(name, Fraction(0)) if is_optimal else Fraction(0)
            left = (-cost if self.model.sense == "max" else cost) - total
            if self.answer.duals[name] != left:
                self.failed.append(
                    f"var {escaped(name)}: its dual is {both(self.answer.duals[name])}, but the rows' duals times its "
                    f"coefficients add up to {both(total)}, which leaves {both(left)} for it"
                )

    def gap(self):
        """What the rows and groups ask for, weighted by their duals."""
        total = Fraction(0)
        for _, functions, sets, duals in self.items():
            constants = [Fraction(0) if isinstance(of, str) else of.constant for of in functions]
            total += least(sets, duals) - sum((a * b for a, b in zip(duals, constants)), Fraction(0))
        return total

    def values(self):
        """The printed value is the point's, and the duals' objective is the same."""
        value, printed = self.model.objective.value(self.answer.point), self.answer.number
        if value != printed:
            self.failed.append(f"objective: at the point it is {both(value)}, not {both(printed)}")
        constant, gap = self.model.objective.constant, self.gap()
        dual_value = constant - gap if self.model.sense == "max" else constant + gap
        if dual_value != printed:
            self.failed.append(f"duals: the weighted bounds add up to {both(dual_value)}, not {both(printed)}")

    def contradiction(self):
        gap = self.gap()
        if gap != self.answer.number:
            self.failed.append(f"gap: the weighted bounds add up to {both(gap)}, not {both(self.answer.number)}")
        if gap <= 0:
            self.failed.append(f"gap: {both(gap)} isn't above 0, so the rows don't contradict each other")

    def ray(self):
        for name, functions, sets, _ in self.items():
            slopes = self.at(functions, self.answer.ray, True)
            if not holds(recession(sets), slopes):
                self.failed.append(f"{name}: along the ray it changes by {listed(slopes)}, and so leaves {said(sets)}")
        slope = self.model.objective.slope(self.answer.ray)
        if not (slope > 0 if self.model.sense == "max" else slope < 0):
            self.failed.append(f"objective: along the ray it changes by {both(slope)}, which is no improvement")


def failures(model, answer):
    """The conditions that an answer fails, in words; none where it is right."""
    judge = Judge(model, answer)
    if answer.kind == "unbounded":
        judge.point()
        judge.ray()
    else:
        if answer.kind == "optimal":
            judge.point()
        judge.signs()
        judge.adjoints(answer.kind == "optimal")
        (judge.values if answer.kind == "optimal" else judge.contradiction)()
    return judge.failed
