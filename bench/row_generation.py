"""Row generation with a solver of mixed-integer programs: the plain way to costs of the smallest greatest cost, to the
least sum of these, or to the fewest changes of present costs.

The solver is handed the variables with their bounds, and a row cost(rival) - cost(wanted) >= 1 for some rivals of each
wanted path. At its point the rivals that cost less than they have to are looked for and added, until there is none.
First the variables may be fractions (each round is then a linear program, and quick), then they have to be whole.

- `design`: a variable z that is at least each of them is made as small as possible.
- `total`: as `design`; then z stays there, and the sum of the variables is made as small as possible.
- `change`: each variable has a mark y, 0 or 1, without which it can't leave its present cost (the rows x - c <= M y and
  c - x <= M y, as a planner would write them, with M as small as the bounds allow), and the sum of the marks is made as
  small as possible.
"""
import os
import resource
import signal
import subprocess
import time
from dataclasses import dataclass

from paths import rivals


class TimeUp(Exception):
    """The solver used up its time."""


@dataclass
class Outcome:
    """What came of a row generation: what was asked for (the greatest cost, the sum, or how many variables change), None
    where there are no costs; rounds and rows; the user seconds of the solver's processes alone, and the seconds that the
    search for rivals took in this program."""
    found: object
    costs: list
    rounds: int
    rows: int
    solver_seconds: float
    search_seconds: float


@dataclass
class Row:
    """How often more a rival uses each variable than the wanted path, and how much more its fixed edges cost."""
    times: dict
    fixed: int


def row_of(problem, request, rival):
    """The row of a rival."""
    row = Row({}, 0)
    for edges, sign in ((rival, 1), (request.edges, -1)):
        for edge in edges:
            variable = problem.variable[edge]
            if variable is None:
                row.fixed += sign * problem.present[edge]
            else:
                row.times[variable] = row.times.get(variable, 0) + sign
    return row


@dataclass
class Aim:
    """What is made as small as possible: `greatest`, `sum`, or `marks`; and a bound on the greatest cost, if there is one."""
    name: str
    most: object = None


def present_costs(problem):
    """The present cost of each variable, None where its interfaces differ or it is outside the bounds."""
    found = {}
    for edge, variable in enumerate(problem.variable):
        if variable is not None:
            found.setdefault(variable, set()).add(problem.present[edge])
    kept = []
    for variable, (low, high) in enumerate(zip(problem.low, problem.high)):
        costs = found[variable]
        cost = costs.pop() if len(costs) == 1 else None
        kept.append(cost if cost is not None and low <= cost <= high else None)
    return kept


def put_marks(file, problem, present):
    """The rows that bind each variable to its present cost unless it is marked."""
    for variable, cost in enumerate(present):
        if cost is not None:
            file.write(' u%d: x%d - %d y%d <= %d\n' % (variable, variable, problem.high[variable] - cost, variable, cost))
            file.write(' d%d: x%d + %d y%d >= %d\n' % (variable, variable, cost - problem.low[variable], variable, cost))


def put_program(path, problem, rows, whole, aim):
    """Writes the program for the solver. All variables stand in the objective, so that each solver numbers them so."""
    count = len(problem.low)
    present = present_costs(problem) if aim.name == 'marks' else []
    marked = [variable for variable, cost in enumerate(present) if cost is not None]
    with open(path, 'w') as file:
        file.write('Minimize\n obj: %d z\n' % (aim.name == 'greatest'))
        for variable in range(count):
            file.write(' + %d x%d\n' % (aim.name == 'sum', variable))
        for variable in marked:
            file.write(' + y%d\n' % variable)
        file.write('Subject To\n')
        for variable in range(count if aim.name == 'greatest' else 0):
            file.write(' g%d: z - x%d >= 0\n' % (variable, variable))
        put_marks(file, problem, present)
        for number, row in enumerate(rows):
            terms = ' '.join('%+d x%d' % (times, variable) for variable, times in row.times.items() if times != 0)
            file.write(' r%d: %s >= %d\n' % (number, terms or '0 z', 1 - row.fixed))
        file.write('Bounds\n z >= %d\n' % max(problem.low, default=0))
        for variable in range(count):
            high = problem.high[variable] if aim.most is None else min(problem.high[variable], aim.most)
            file.write(' %d <= x%d <= %d\n' % (problem.low[variable], variable, high))
        for variable in marked:
            file.write(' 0 <= y%d <= 1\n' % variable)
        if whole:
            file.write('General\n z\n')
            for variable in range(count):
                file.write(' x%d\n' % variable)
            for variable in marked:
                file.write(' y%d\n' % variable)
        file.write('End\n')


def user_seconds(words, limit, out=subprocess.DEVNULL):
    """Runs a command for at most `limit` seconds of processor time: its user seconds and its exit status."""
    def bound():
        most = int(limit) + 1
        resource.setrlimit(resource.RLIMIT_CPU, (most, most))

    process = subprocess.Popen(words, stdout=out, stderr=subprocess.DEVNULL, preexec_fn=bound)
    _, status, usage = os.wait4(process.pid, 0)
    process.returncode = os.waitstatus_to_exitcode(status)
    if process.returncode in (-signal.SIGKILL, -signal.SIGXCPU):
        raise TimeUp()
    if process.returncode < 0:
        raise RuntimeError('%s ended by signal %d' % (words[0], -process.returncode))
    return usage.ru_utime, process.returncode


def run_cbc(program, answer, limit, _whole):
    """CBC's point for a program, None where there is none, and its user seconds."""
    seconds, _ = user_seconds(['cbc', program, 'solve', 'solu', answer], limit)
    with open(answer) as file:
        lines = file.read().splitlines()
    head = lines[0].lower() if lines else ''
    if 'infeasible' in head:
        return None, seconds
    if not head.startswith('optimal'):
        raise RuntimeError('cbc: ' + head)
    point = {}
    for line in lines[1:]:
        words = line.split()
        point[words[1]] = float(words[2])
    return point, seconds


def run_glpk(program, answer, limit, whole):
    """GLPK's point for a program, None where there is none, and its user seconds."""
    with open(answer + '.log', 'w+') as log:
        words = ['glpsol', '--lp', program, '-w', answer]
        seconds, _ = user_seconds(words, limit, log)
        log.seek(0)
        told = log.read()
    if 'NO PRIMAL FEASIBLE' in told or 'NO INTEGER FEASIBLE' in told:
        return None, seconds
    if 'OPTIMAL' not in told:
        raise RuntimeError('glpsol: ' + told)
    point, value_at = {}, 2 if whole else 3
    with open(answer) as file:
        for line in file:
            words = line.split()
            if words[0] == 'j':
                # The objective has the columns in order: z, the variables, and then the marks, which nobody asks for.
                number = int(words[1])
                point['z' if number == 1 else 'x%d' % (number - 2)] = float(words[value_at])
    return point, seconds


SOLVERS = {'cbc': run_cbc, 'glpk': run_glpk}


class Generation:
    """Rows, rounds and seconds of a row generation so far."""

    def __init__(self, problem, solver, folder, limit):
        self.problem, self.solver, self.limit = problem, solver, limit
        self.into, self.out = problem.edges_into(), problem.edges_out()
        self.program, self.answer = os.path.join(folder, 'program.lp'), os.path.join(folder, 'answer.txt')
        self.rows, self.seen = [], set()
        self.spent, self.searching, self.rounds = 0.0, 0.0, 0

    def outcome(self, found, costs):
        return Outcome(found, costs, self.rounds, len(self.rows), self.spent, self.searching)

    def point(self, aim, whole):
        """The solver's point for the rows so far, None where there is none."""
        put_program(self.program, self.problem, self.rows, whole, aim)
        point, seconds = SOLVERS[self.solver](self.program, self.answer, max(1.0, self.limit - self.spent), whole)
        self.spent += seconds
        self.rounds += 1
        if self.spent > self.limit:
            raise TimeUp()
        if point is None:
            return None
        values = [point.get('x%d' % variable, 0.0) for variable in range(len(self.problem.low))]
        return [round(value) for value in values] if whole else values

    def add_rows(self, values):
        """Adds the rows that these values don't meet; how many were new."""
        began = time.process_time()
        cost = self.problem.costs(values)
        before = len(self.rows)
        for number, request in enumerate(self.problem.requests):
            for rival in rivals(self.problem, self.into, self.out, cost, request):
                if (number, rival) not in self.seen:
                    self.seen.add((number, rival))
                    self.rows.append(row_of(self.problem, request, rival))
        self.searching += time.process_time() - began
        return len(self.rows) - before

    def least(self, aim, whole=False):
        """Whole costs that are best by the aim, None where no costs fit."""
        while True:
            values = self.point(aim, whole)
            if values is None:
                return None
            if self.add_rows(values) == 0:
                if whole:
                    return values
                whole = True


def generate(problem, solver, folder, limit, question='design'):
    """Row generation with this solver in at most `limit` user seconds of it; raises TimeUp past that."""
    run = Generation(problem, solver, folder, limit)
    if question == 'change':
        values = run.least(Aim('marks'))
        if values is None:
            return run.outcome(None, [])
        return run.outcome(sum(cost != value for cost, value in zip(present_costs(problem), values)), values)
    values = run.least(Aim('greatest'))
    if values is not None and question == 'total':
        most = max(values, default=0)
        values = run.least(Aim('sum', most), whole=True)
        return run.outcome(sum(values), values)
    return run.outcome(None if values is None else max(values, default=0), values or [])
