#!/usr/bin/env python3
"""Runs `ospfcost` and row generation by CBC and by GLPK on the same networks, one after the other.

    compare.py [--program PATH] [--question design|total|change|conflict] [--networks small|whole|large] [--limit SECONDS]
               [--plot FILE] [--solver cbc|glpk ..] [--folder FOLDER ..]

Prints a table: for each network what was found (the greatest cost; with `total` the least sum of costs of that greatest
cost; with `change` the fewest changed variables), the user seconds of each, and how many times as long as `ospfcost`
the solver took. What was found is compared; where two differ, the script says so and ends with status 1. A run that
passes the limit counts as `over`, and a table's ratio is then a lower bound. `conflict` has the times of `design` in
the solvers' place. --solver names those that are to run; else both do. With --plot it also writes an SVG of how the times
grow (it wants gnuplot). With --folder it runs over folders that are there, such as examples/backbone.
"""
import argparse
import datetime
import os
import pathlib
import platform
import subprocess
import sys
import tempfile
from dataclasses import dataclass

import make_network
from problem import read_problem
from row_generation import SOLVERS, TimeUp, generate, user_seconds

TOP = pathlib.Path(__file__).resolve().parents[1]
PROGRAM = TOP / 'crates' / 'ospfcost' / 'out' / 'ospfcost'
# A run shorter than this is repeated, and the least time counts.
SHORT = 0.5
REPEATS = 3
# In ratios and in the plot a shorter time counts as so many seconds.
LEAST = 0.001


@dataclass
class Run:
    """What a run came to: a number, `impossible`, `undecided`, `over`, or what `conflict` tells, and its user seconds."""
    found: str
    seconds: float
    note: str = ''


def networks(kind, question):
    """The networks, as (kind, routers, paths, seed, detours, moved costs). The first ones grow in routers, the next in
    paths. `change` has present costs, of which some were moved."""
    if kind == 'large':
        found = [('random', 200, 200, 1), ('random', 200, 200, 2), ('random', 200, 400, 1), ('random', 250, 250, 1),
                 ('random', 250, 1000, 1), ('random', 50, 1000, 1), ('symmetric', 200, 200, 1), ('grid', 144, 200, 1)]
        return [(*made, 0, 5 if question == 'change' else None) for made in found]
    grown = [(20, 20), (30, 30), (50, 50), (75, 75), (100, 100)]
    if kind == 'whole':
        grown += [(150, 100), (200, 100), (250, 100)]
    if question == 'change':
        return [('random', routers, paths, seed, 0, 10) for routers, paths in grown for seed in (1, 2)]
    found = [('random', routers, paths, seed, 0, None) for routers, paths in grown for seed in (1, 2)]
    most = 200 if kind == 'whole' else 100
    found += [('random', 100, paths, 1, 0, None) for paths in (25, 50, 150, 200) if paths <= most]
    found += [('random', 50, 50, 1, 10, None), ('grid', 36, 40, 1, 0, None), ('ring', 40, 40, 1, 0, None),
              ('symmetric', 50, 50, 1, 0, None)]
    if kind == 'whole':
        found += [('grid', 100, 60, 1, 0, None), ('ring', 100, 60, 1, 0, None), ('symmetric', 100, 100, 1, 0, None)]
    return found


def number_behind(lines, word):
    """The number of the last line `WORD NUMBER`."""
    return [words[1] for words in lines if len(words) == 2 and words[0] == word][-1]


def found_in(question, status, text):
    """What a text tells."""
    lines = [line.split() for line in text.splitlines()]
    if status not in (0, 1, 2) or lines[0][0] != 'ospfcost':
        sys.exit('%s ended with status %d' % (question, status))
    verdicts = [words for words in lines if words[0] == 'verdict']
    if question == 'conflict':
        return ' '.join(verdicts[0][1:2] + next((words[1:2] for words in lines if words[0] == 'members'), []))
    if status != 0:
        return verdicts[0][1]
    return number_behind(lines, 'total') if question == 'total' else verdicts[0][2]


def run_design(question, program, request, configurations, limit, folder):
    """One run of `ospfcost`."""
    answer = os.path.join(folder, 'answer-of-ospfcost.txt')
    try:
        with open(answer, 'wb') as out:
            seconds, status = user_seconds([program, question, '--request', request, *configurations], limit, out)
    except TimeUp:
        return Run('over', limit)
    return Run(found_in(question, status, pathlib.Path(answer).read_text()), seconds)


def run_solver(question, solver, problem, limit, folder):
    """One row generation."""
    try:
        outcome = generate(problem, solver, folder, limit, question)
    except TimeUp:
        return Run('over', limit)
    found = 'impossible' if outcome.found is None else str(outcome.found)
    return Run(found, outcome.solver_seconds,
               '%d rounds, %d rows, %.1f s of search' % (outcome.rounds, outcome.rows, outcome.search_seconds))


def least_time(run):
    """Runs once, and where that was short some more times: the run of least time."""
    best = run()
    if best.found != 'over' and best.seconds < SHORT:
        for _ in range(REPEATS - 1):
            again = run()
            if again.found != best.found:
                sys.exit('two equal runs came to %s and %s' % (best.found, again.found))
            best = min(best, again, key=lambda one: one.seconds)
    return best


def rivals_of(question, solvers):
    """What runs beside a question."""
    return ['design'] if question == 'conflict' else list(solvers)


def measure(question, program, request, configurations, limit, others):
    """The runs of one network, by name."""
    problem = read_problem(request, configurations)
    with tempfile.TemporaryDirectory() as folder:
        runs = {'ospfcost': least_time(lambda: run_design(question, program, request, configurations, limit, folder))}
        for other in others:
            if other == 'design':
                runs[other] = least_time(lambda: run_design(other, program, request, configurations, limit, folder))
            else:
                runs[other] = least_time(lambda: run_solver(question, other, problem, limit, folder))
    return problem, runs


def agree(runs):
    """Whether all runs that came to an end came to the same."""
    return len({run.found for run in runs.values()} - {'over', 'undecided'}) <= 1


def seconds_of(run):
    """A time for the table."""
    return 'over %.0f' % run.seconds if run.found == 'over' else '%.3f' % run.seconds


def ratio(run, base):
    """How many times as long as the base a run took."""
    if base.found == 'over':
        return '-'
    times = max(run.seconds, LEAST) / max(base.seconds, LEAST)
    is_bound = run.found == 'over' or base.seconds < LEAST
    return '%s%.*f' % ('> ' if is_bound else '', 0 if times >= 10 else 1, times)


def line_of(label, problem, runs):
    """A line of the table."""
    ours = runs['ospfcost']
    cells = [label, str(len(problem.routers)), str(len(problem.low)), str(len(problem.requests)), ours.found,
             seconds_of(ours)]
    for other in runs:
        if other != 'ospfcost':
            cells += [seconds_of(runs[other]), ratio(runs[other], ours)]
    return '| ' + ' | '.join(cells) + ' |'


def machine():
    """The processor and the day."""
    model = platform.machine()
    for line in pathlib.Path('/proc/cpuinfo').read_text().splitlines():
        if line.startswith('model name'):
            model = line.split(':', 1)[1].strip()
            break
    load = os.getloadavg()[0]
    return '%s, %d processors, load %.1f, %s' % (model, os.cpu_count(), load, datetime.date.today())


def plot(path, measured):
    """An SVG with two pictures: times by routers and by paths."""
    by_routers = [(made[1], runs) for made, runs in measured if made[0] == 'random' and made[4] == 0 and made[3] == 1
                  and made[2] == min(made[1], 100)]
    by_paths = [(made[2], runs) for made, runs in measured if made[:2] == ('random', 100) and made[4] == 0
                and made[3] == 1]
    text = ["set terminal svg size 1000,420 font 'Helvetica,13' background 'white'", "set output '%s'" % path,
            'set logscale y', 'set grid', "set ylabel 'user seconds'", 'set key left top', 'set multiplot layout 1,2']
    for points, title, axis in ((by_routers, 'as many paths as routers, at most 100', 'routers'),
                                (by_paths, '100 routers', 'paths')):
        points.sort(key=lambda point: point[0])
        names = list(points[0][1]) if points else []
        text += ["set title '%s'" % title, "set xlabel '%s'" % axis, 'plot '
                 + ', '.join("'-' with linespoints linewidth 2 title '%s'" % name for name in names)]
        for name in names:
            text += ['%d %f' % (place, max(runs[name].seconds, LEAST)) for place, runs in points]
            text.append('e')
    text.append('unset multiplot')
    subprocess.run(['gnuplot'], input='\n'.join(text) + '\n', text=True, check=True)


def main():
    words = argparse.ArgumentParser(description='Compares ospfcost with row generation by CBC and by GLPK.')
    words.add_argument('--program', default=str(PROGRAM))
    words.add_argument('--question', choices=('design', 'total', 'change', 'conflict'), default='design')
    words.add_argument('--networks', choices=('small', 'whole', 'large'), default='small')
    words.add_argument('--limit', type=float, default=60.0)
    words.add_argument('--plot')
    words.add_argument('--solver', nargs='+', choices=tuple(SOLVERS))
    words.add_argument('--folder', nargs='+', default=[])
    asked = words.parse_args()
    print(machine(), flush=True)
    others = rivals_of(asked.question, asked.solver or SOLVERS)
    names = ' | '.join('%s s | times' % other for other in others)
    found = {'design': 'greatest cost', 'total': 'least sum', 'change': 'changes', 'conflict': 'found'}[asked.question]
    print('\n| network | routers | variables | paths | %s | %s s | %s |'
          % (found, 'ospfcost' if asked.question == 'design' else asked.question, names))
    print('|---|---|---|---|---|---|' + '---|---|' * len(others), flush=True)
    measured, right = [], True
    with tempfile.TemporaryDirectory() as folder:
        waiting = [(folder_name, None) for folder_name in asked.folder] or [(None, made) for made in networks(asked.networks, asked.question)]
        for given, made in waiting:
            if given is None:
                label = '%s, seed %d%s%s' % (made[0], made[3], ', %d detours' % made[4] if made[4] else '',
                                             ', %d moved' % made[5] if made[5] else '')
                request, configurations = make_network.make(os.path.join(folder, '-'.join(map(str, made))), *made)
            else:
                label = os.path.basename(given.rstrip('/'))
                request = os.path.join(given, 'request.txt')
                configurations = sorted(map(str, pathlib.Path(given).glob('*.conf')))
            problem, runs = measure(asked.question, asked.program, request, configurations, asked.limit, others)
            print(line_of(label, problem, runs), flush=True)
            for other in others:
                print('%s, %s: %s' % (label, other, runs[other].note), file=sys.stderr)
            if asked.question != 'conflict' and not agree(runs):
                right = False
                print('they differ: %s' % {name: run.found for name, run in runs.items()}, flush=True)
            if made is not None:
                measured.append((made, runs))
    if asked.plot and measured:
        plot(asked.plot, measured)
    sys.exit(0 if right else 1)


if __name__ == '__main__':
    main()
