#!/usr/bin/env python3
"""Makes a network with wanted paths, as configurations and a request that `ospfcost design` reads.

    make_network.py FOLDER --kind KIND --routers N --paths Q --seed S [--detours D] [--moved M]

Kinds: `random` (a random tree and then links between random routers, 3.5 links at each router on average),
`grid` (as near to a square as N allows), `ring` (with a chord for each four routers), and `symmetric` (as `random`, and
both ends of a link have one cost). The wanted paths are only cheapest paths between random routers under hidden random
costs from 1 to 20, so there are costs that fit. With --detours D, D of them then avoid a link of theirs in place of
that; whether costs fit is then open. With --moved M the interfaces have present costs, which are the hidden ones but
for M of them, and the first quarter of the paths, where so many can be found, isn't cheapest at present: at most M
changes will do. The same words make the same files.
"""
import argparse
import os
import pathlib
import random

from paths import distances, follow
from problem import Problem

HIDDEN = 20
KINDS = ('random', 'grid', 'ring', 'symmetric')


def random_links(chance, routers):
    """A random tree over all routers, and random further links up to 3.5 at each router on average."""
    order = list(range(routers))
    chance.shuffle(order)
    links = {frozenset((order[place], chance.choice(order[:place]))) for place in range(1, routers)}
    wanted = min(routers * 7 // 4, routers * (routers - 1) // 2)
    while len(links) < wanted:
        links.add(frozenset(chance.sample(range(routers), 2)))
    return links


def grid_links(routers):
    """Rows of as many routers as the root of their number; the last row may be shorter."""
    width = max(1, int(routers ** 0.5))
    links = set()
    for router in range(routers):
        if (router + 1) % width != 0 and router + 1 < routers:
            links.add(frozenset((router, router + 1)))
        if router + width < routers:
            links.add(frozenset((router, router + width)))
    return links


def ring_links(chance, routers):
    """A ring, and a link across it for each four routers."""
    links = {frozenset((router, (router + 1) % routers)) for router in range(routers)} if routers > 2 else set()
    wanted = min(len(links) + routers // 4, routers * (routers - 1) // 2)
    while len(links) < wanted:
        links.add(frozenset(chance.sample(range(routers), 2)))
    return links


def links_of(kind, chance, routers):
    """The links of a network of this kind, as pairs of routers in a random order."""
    if kind == 'grid':
        links = grid_links(routers)
    elif kind == 'ring':
        links = ring_links(chance, routers)
    else:
        links = random_links(chance, routers)
    pairs = sorted(tuple(sorted(link)) for link in links)
    chance.shuffle(pairs)
    return pairs


def network_of(pairs, routers):
    """The network of these links: the edges 2k and 2k + 1 are those of link k."""
    problem = Problem(['r%d' % router for router in range(routers)])
    count = [0] * routers
    for one, other in pairs:
        for tail, head in ((one, other), (other, one)):
            problem.tail.append(tail)
            problem.head.append(head)
            problem.interface.append('eth%d' % count[tail])
            count[tail] += 1
    return problem


def put_configurations(problem, folder, present):
    """Writes a configuration for each router: the links k have the subnets 10.a.b.c/31, numbered by k. Where there are
    present costs, each interface has its own."""
    text = ['hostname %s\n!\n' % router for router in problem.routers]
    for edge, tail in enumerate(problem.tail):
        address = '10.%d.%d.%d' % (edge // 65536, edge // 256 % 256, edge % 256)
        cost = ' ip ospf cost %d\n' % present[edge] if present else ''
        text[tail] += ('interface %s\n ip address %s/31\n ip ospf area 0\n%s ip ospf network point-to-point\nexit\n!\n'
                       % (problem.interface[edge], address, cost))
    paths = []
    for router, lines in zip(problem.routers, text):
        paths.append(os.path.join(folder, router + '.conf'))
        pathlib.Path(paths[-1]).write_text(lines)
    return paths


def only_cheapest(problem, out, cost, far, start, target):
    """The cheapest path by these distances, None where there is more than one."""
    way = follow(problem, out, cost, far, start, target, frozenset(), frozenset())
    for edge in way:
        tail = problem.tail[edge]
        tight = [e for e in out[tail] if far[tail] == cost[e] + far[problem.head[e]]]
        if len(tight) > 1:
            return None
    return way


def wanted_paths(problem, chance, cost, count, present=None):
    """At most `count` only cheapest paths under these costs, between pairs of different routers. With present costs the
    first quarter of them aren't cheapest under those, as long as the pairs suffice."""
    into, out = problem.edges_into(), problem.edges_out()
    routers = len(problem.routers)
    pairs = [(start, target) for start in range(routers) for target in range(routers) if start != target]
    chance.shuffle(pairs)
    paths, held, far_to, far_now = [], [], {}, {}
    for start, target in pairs:
        if len(paths) == count or (len(paths) >= count // 4 and len(paths) + len(held) >= count):
            break
        if target not in far_to:
            far_to[target] = distances(problem, into, cost, target, frozenset(), frozenset())
        way = only_cheapest(problem, out, cost, far_to[target], start, target)
        if way is None:
            continue
        if present is not None:
            if target not in far_now:
                far_now[target] = distances(problem, into, present, target, frozenset(), frozenset())
            if only_cheapest(problem, out, present, far_now[target], start, target) == way:
                held.append(way)
                continue
        paths.append(way)
    return (paths + held)[:count]


def detour(problem, chance, cost, way):
    """A cheapest path between the same ends without one edge of this one; the old one where there is no other."""
    lost = frozenset((chance.choice(way),))
    start, target = problem.tail[way[0]], problem.head[way[-1]]
    far = distances(problem, problem.edges_into(), cost, target, lost, frozenset())
    if far[start] is None:
        return way
    return follow(problem, problem.edges_out(), cost, far, start, target, lost, frozenset())


def put_request(problem, paths, symmetric, folder):
    """Writes the request."""
    lines = ['ospfcost request 1', 'area 0', 'free all 1 65535']
    if symmetric:
        lines.append('symmetric all')
    for way in paths:
        hops = ' '.join('%s:%s' % (problem.routers[problem.tail[edge]], problem.interface[edge]) for edge in way)
        lines.append('path %s %s' % (hops, problem.routers[problem.head[way[-1]]]))
    path = os.path.join(folder, 'request.txt')
    pathlib.Path(path).write_text('\n'.join(lines) + '\n')
    return path


def make(folder, kind, routers, paths, seed, detours=0, moved=None):
    """Makes the files of a network in a folder: the paths of the request and of the configurations."""
    os.makedirs(folder, exist_ok=True)
    chance = random.Random('%s %d %d %d %d' % (kind, routers, paths, detours, seed))
    problem = network_of(links_of(kind, chance, routers), routers)
    cost = [chance.randint(1, HIDDEN) for _ in problem.tail]
    if kind == 'symmetric':
        cost = [cost[edge - edge % 2] for edge in range(len(cost))]
    present = None
    if moved is not None:
        present = list(cost)
        for edge in chance.sample(range(len(cost)), moved):
            cost[edge] = chance.randint(1, HIDDEN)
    wanted = wanted_paths(problem, chance, cost, paths, present)
    for place in chance.sample(range(len(wanted)), min(detours, len(wanted))):
        wanted[place] = detour(problem, chance, cost, wanted[place])
    configurations = put_configurations(problem, folder, present)
    return put_request(problem, wanted, kind == 'symmetric', folder), configurations


def main():
    words = argparse.ArgumentParser(description='Makes a network with wanted paths.')
    words.add_argument('folder')
    words.add_argument('--kind', choices=KINDS, default='random')
    words.add_argument('--routers', type=int, default=20)
    words.add_argument('--paths', type=int, default=10)
    words.add_argument('--seed', type=int, default=1)
    words.add_argument('--detours', type=int, default=0)
    words.add_argument('--moved', type=int)
    asked = words.parse_args()
    make(asked.folder, asked.kind, asked.routers, asked.paths, asked.seed, asked.detours, asked.moved)


if __name__ == '__main__':
    main()
