"""The least by which the soft bounds of a model must be missed where all others are met, by a simplex in exact fractions."""

from fractions import Fraction


def least_misses(names, all_bounds):
    """The least sum of misses, or None where no point meets the hard bounds."""
    equations, right_sides = [], []
    columns = {name: 2 * place for place, name in enumerate(names)}
    costs = [0] * (2 * len(names))
    for bounds in all_bounds:
        # A variable is the difference of two columns, which aren't negative.
        base = {}
        for name, factor in bounds.terms.items():
            base[columns[name]], base[columns[name] + 1] = factor, -factor
        for limit, sign in ((bounds.low, 1), (bounds.high, -1)):
            if limit is not None:
                equation = dict(base)
                equation[len(costs)] = -sign
                costs.append(0)
                if bounds.is_soft:
                    equation[len(costs)] = sign
                    costs.append(1)
                equations.append(equation)
                right_sides.append(limit - bounds.constant)
    rows = [[Fraction(equation.get(column, 0)) for column in range(len(costs))] for equation in equations]
    return least(rows, right_sides, costs)


def least(rows, right_sides, costs):
    """The least cost of numbers that aren't negative and meet equations, or None where there are none."""
    count, size = len(costs), len(rows)
    table = []
    for place, (row, right) in enumerate(zip(rows, right_sides)):
        sign = -1 if right < 0 else 1
        own = [Fraction(int(place == other)) for other in range(size)]
        table.append([sign * factor for factor in row] + own + [sign * Fraction(right)])
    basis = list(range(count, count + size))
    descend(table, basis, [0] * count + [1] * size, count + size)
    if any(table[row][-1] != 0 for row in range(size) if basis[row] >= count):
        return None
    for row in range(size):
        if basis[row] >= count:
            column = next((column for column in range(count) if table[row][column] != 0), None)
            if column is not None:
                pivot(table, basis, row, column)
    costs = [*costs, *[0] * size]
    descend(table, basis, costs, count)
    return sum(costs[basis[row]] * table[row][-1] for row in range(size))


def descend(table, basis, costs, count):
    """Pivots by Bland's rule on the first columns until none lowers the cost."""
    size = len(table)
    while True:
        costly = [row for row in range(size) if costs[basis[row]] != 0]
        for column in range(count):
            if costs[column] < sum(costs[basis[row]] * table[row][column] for row in costly):
                break
        else:
            return
        # No cost is negative, so a row bounds each column that lowers it.
        rows = [row for row in range(size) if table[row][column] > 0]
        leaving = min(rows, key=lambda row: (table[row][-1] / table[row][column], basis[row]))
        pivot(table, basis, leaving, column)


def pivot(table, basis, row, column):
    divisor = table[row][column]
    own = {place: number / divisor for place, number in enumerate(table[row]) if number != 0}
    table[row] = [own.get(place, number) for place, number in enumerate(table[row])]
    for other, numbers in enumerate(table):
        factor = numbers[column]
        if other != row and factor != 0:
            for place, number in own.items():
                numbers[place] -= factor * number
    basis[row] = column
