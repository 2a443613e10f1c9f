"""The problem that configurations and a request state, for networks of point-to-point links alone.

The benchmark reads the very files that `ospfcost design` reads, so that both solve one problem. It refuses what it
doesn't know: broadcast subnets and `network` lines. It takes the files to be right otherwise.
"""
import ipaddress
import os
from dataclasses import dataclass, field


@dataclass
class Request:
    """A request: a wanted path, as its edges from its start on, its end, and the edges that it excludes."""
    start: int
    target: int
    edges: list
    excluded: frozenset


@dataclass
class Problem:
    """Edges go from router to router, one for each linked interface, `interface[e]`; `present[e]` is its present cost,
    None without one, and `variable[e]` the number of its cost among the variables, None where it is fixed. The
    variables' bounds are `low` and `high`."""
    routers: list
    tail: list = field(default_factory=list)
    head: list = field(default_factory=list)
    interface: list = field(default_factory=list)
    present: list = field(default_factory=list)
    variable: list = field(default_factory=list)
    low: list = field(default_factory=list)
    high: list = field(default_factory=list)
    requests: list = field(default_factory=list)

    def costs(self, values):
        """The cost of each edge where the variables have these values."""
        return [self.present[edge] if variable is None else values[variable]
                for edge, variable in enumerate(self.variable)]

    def edges_into(self):
        """For each router the edges that end there."""
        into = [[] for _ in self.routers]
        for edge, head in enumerate(self.head):
            into[head].append(edge)
        return into

    def edges_out(self):
        """For each router the edges that begin there."""
        out = [[] for _ in self.routers]
        for edge, tail in enumerate(self.tail):
            out[tail].append(edge)
        return out


class NotRead(Exception):
    """A line that the benchmark doesn't know."""


def read_interfaces(path):
    """The router's name and its interfaces of an area, as (name, subnet, cost), in the order of the file."""
    router = os.path.basename(path).split('.')[0]
    interfaces, settings = [], {}
    block = None
    with open(path) as lines:
        for line in lines:
            words = line.split()
            if not words or words[0][0] in '!#':
                continue
            if line[0] not in ' \t':
                block = words[1] if words[0] == 'interface' and len(words) == 2 else None
                if words[0] == 'hostname':
                    router = words[1]
                if block is not None and block not in settings:
                    settings[block] = {}
                    interfaces.append(block)
            elif block is not None and words[:2] == ['ip', 'address']:
                settings[block]['address'] = ipaddress.ip_interface(words[2])
            elif block is not None and words[:2] == ['ip', 'ospf']:
                settings[block][words[2]] = words[3:]
            elif words[0] == 'network':
                raise NotRead('%s: %s' % (path, line.strip()))
    kept = []
    for name in interfaces:
        has = settings[name]
        if 'area' in has and 'address' in has and 'passive' not in has and has['address'].network.prefixlen < 32:
            if has.get('network') != ['point-to-point']:
                raise NotRead('%s: %s is not point-to-point' % (path, name))
            kept.append((name, has['address'].network, int(has['cost'][0]) if 'cost' in has else None))
    return router, kept


def read_problem(request_path, config_paths):
    """The problem of these files."""
    found = [read_interfaces(path) for path in config_paths]
    problem = Problem([router for router, _ in found])
    members = {}
    for number, (_, interfaces) in enumerate(found):
        for name, subnet, _ in interfaces:
            members.setdefault(subnet, []).append((number, name))
    edge_of, mate = {}, {}
    for number, (_, interfaces) in enumerate(found):
        for name, subnet, cost in interfaces:
            ends = members[subnet]
            if len(ends) != 2:
                continue
            other = ends[1] if ends[0] == (number, name) else ends[0]
            edge_of[number, name] = len(problem.tail)
            mate[number, name] = other
            problem.tail.append(number)
            problem.head.append(other[0])
            problem.interface.append(name)
            problem.present.append(cost)
    read_request(problem, request_path, edge_of, mate)
    return problem


def read_request(problem, path, edge_of, mate):
    """Adds the variables and wanted paths of a request file."""
    number_of = {name: number for number, name in enumerate(problem.routers)}
    bounds, named, paths = {}, set(), []
    with open(path) as lines:
        for line in lines:
            words = line.split()
            if not words or words[0][0] in '!#' or words[0] in ('ospfcost', 'area'):
                continue
            places = list(edge_of) if words[1] == 'all' else [(number_of.get(words[1]), ' '.join(words[2:3]))]
            if words[0] == 'free':
                bounds.update(dict.fromkeys(places, (int(words[-2]), int(words[-1]))))
            elif words[0] == 'fix':
                bounds.pop(places[0], None)
            elif words[0] == 'symmetric':
                named.update(place for one in places for place in (one, mate[one]))
            elif words[0] == 'default-cost':
                problem.present = [int(words[1]) if cost is None else cost for cost in problem.present]
            elif words[0] == 'path':
                paths.append(words[1:])
            else:
                raise NotRead('%s: %s' % (path, line.strip()))
    add_variables(problem, edge_of, mate, bounds, named)
    for words in paths:
        cut = words.index('without') if 'without' in words else len(words)
        problem.requests.append(wanted(problem, words[:cut], words[cut + 1:], number_of, edge_of, mate))


def add_variables(problem, edge_of, mate, bounds, named):
    """Adds a variable for each free interface, or for both ends of a link that is to have one cost."""
    number_at = {}
    for place in edge_of:
        if place not in bounds:
            number_at[place] = None
        elif place in named and mate[place] in number_at:
            number_at[place] = number_at[mate[place]]
        else:
            number_at[place] = len(problem.low)
            problem.low.append(bounds[place][0])
            problem.high.append(bounds[place][1])
        problem.variable.append(number_at[place])


def wanted(problem, hops, lost, number_of, edge_of, mate):
    """The request of the words of a `path` line."""
    def place(word):
        router, name = word.split(':')
        return number_of[router], name

    edges = [edge_of[place(word)] for word in hops[:-1]]
    excluded = set()
    for word in lost:
        if ':' in word:
            excluded |= {edge_of[place(word)], edge_of[mate[place(word)]]}
        else:
            router = number_of[word]
            excluded |= {e for e in range(len(problem.tail)) if router in (problem.tail[e], problem.head[e])}
    target = number_of[hops[-1]]
    start = problem.tail[edges[0]] if edges else target
    return Request(start, target, edges, frozenset(excluded))
