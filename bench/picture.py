#!/usr/bin/env python3
"""Draws a network with its wanted paths, as SVG:

    python3 bench/picture.py --request F [--answer A] [--positions P] [--title T] [--output PICTURE] CONFIG..

Routers are boxes, and each link has the costs of its two ends, each at its end, or one in the middle where they are
equal. With an answer (any text with sections of costs: of design, total, spread or change) its costs take the place of
the present ones, and those that it changes are bold, behind the present one. A wanted path is a line in a colour of its
own beside its links: whole where it is the only cheapest at the costs of the picture, dashed where another path costs
as little or less (tied, beaten). Paths that are wanted for a failure (`without`) alone are left out, or drawn with
--failures. A broadcast subnet is a small circle between its routers.

Positions: a file with a line `ROUTER X Y` for each router, or `ROUTER X Y NAME ..` to name it otherwise in the picture,
in inches or any unit that --scale (inches for one unit) turns into such. Without it graphviz finds places (neato).
It wants graphviz, and draws what configurations of FRRouting say of one area; it takes the files to be right.
"""
import argparse
import heapq
import html
import ipaddress
import os
import subprocess
import sys
from dataclasses import dataclass, field

COLOURS = ['#1f77b4', '#d62728', '#2ca02c', '#ff7f0e', '#9467bd', '#8c564b', '#17becf', '#e377c2', '#7f7f7f', '#bcbd22']
LINK = '#c8c8c8'


@dataclass
class Interface:
    """An interface of the area, with the number of its router."""
    router: int
    name: str
    subnet: ipaddress.IPv4Network = None
    cost: int = None
    point_to_point: bool = False
    changed: bool = False
    present: int = None


@dataclass
class Network:
    """Routers are the first vertices, and behind them come the broadcast subnets. `far[i]` is the vertex at the other
    end of interface `i`, None where it isn't linked; `edges` are (tail, head, cost, interface), with no interface for
    those from a subnet to a router."""
    routers: list = field(default_factory=list)
    interfaces: list = field(default_factory=list)
    subnets: list = field(default_factory=list)
    far: list = field(default_factory=list)
    edges: list = field(default_factory=list)

    def number(self, router, name):
        return next(i for i, it in enumerate(self.interfaces) if it.name == name and self.routers[it.router] == router)


def read_config(path, router):
    """A router's name and the interfaces that its configuration puts into an area."""
    name = os.path.basename(path).split('.')[0]
    said, block, prefixes, passive = {}, None, [], set()
    with open(path, encoding='utf-8', errors='replace') as lines:
        for line in lines:
            words = line.split()
            if not words or words[0][0] in '!#':
                continue
            if line[0] not in ' \t':
                block = words
                if words[0] == 'hostname':
                    name = words[1]
                elif words[0] == 'interface' and len(words) == 2:
                    said.setdefault(words[1], {})
            elif block[0] == 'interface':
                here = said[block[1]]
                if words[:2] == ['ip', 'address']:
                    here['address'] = ipaddress.ip_interface(words[2])
                elif words[:2] == ['ip', 'ospf']:
                    here[words[2]] = words[3:]
                elif words == ['shutdown']:
                    here['shutdown'] = True
            elif block == ['router', 'ospf']:
                if words[0] == 'network':
                    prefixes.append(ipaddress.ip_network(words[1], strict=False))
                elif words[0] == 'passive-interface':
                    passive.add(words[1])
    found = []
    for interface, here in said.items():
        address = here.get('address')
        if address is None or 'shutdown' in here or 'passive' in here or interface in passive:
            continue
        if 'area' in here or any(address.ip in prefix for prefix in prefixes):
            cost = int(here['cost'][0]) if 'cost' in here else None
            found.append(Interface(router, interface, address.network, cost, here.get('network') == ['point-to-point']))
    return name, found


def read_network(paths):
    network = Network()
    for path in paths:
        name, found = read_config(path, len(network.routers))
        network.routers.append(name)
        network.interfaces += found
    return network


def link(network):
    """Joins what shares a subnet: two interfaces of a point-to-point subnet, all of a broadcast one."""
    members = {}
    for i, it in enumerate(network.interfaces):
        members.setdefault((it.subnet, it.point_to_point), []).append(i)
    network.far = [None] * len(network.interfaces)
    for (subnet, point_to_point), own in members.items():
        if point_to_point and len(own) == 2:
            for here, there in (own, own[::-1]):
                network.far[here] = network.interfaces[there].router
        elif not point_to_point and len(own) > 1:
            vertex = len(network.routers) + len(network.subnets)
            network.subnets.append(subnet)
            for here in own:
                network.far[here] = vertex


def lay_edges(network):
    for i, it in enumerate(network.interfaces):
        if network.far[i] is not None:
            network.edges.append((it.router, network.far[i], it.cost, i))
            if network.far[i] >= len(network.routers):
                network.edges.append((network.far[i], it.router, 0, None))


@dataclass
class Path:
    """A request: a wanted path by its interfaces, its last router, and the edges that it excludes."""
    hops: list
    target: int
    lost: set
    words: str


def read_request(path, network):
    """The wanted paths of a request, the default cost put in where it is needed."""
    lines = []
    with open(path, encoding='utf-8') as file:
        for line in file:
            words = line.split()
            if words and words[0] == 'default-cost':
                for it in network.interfaces:
                    it.cost = int(words[1]) if it.cost is None else it.cost
            elif words and words[0] == 'path':
                lines.append(words[1:])
    return lines


def wanted_path(network, words):
    cut = words.index('without') if 'without' in words else len(words)
    hops = [network.number(*word.split(':', 1)) for word in words[:cut - 1]]
    lost = set()
    for word in words[cut + 1:]:
        if ':' in word:
            gone = network.interfaces[network.number(*word.split(':', 1))]
            lost |= {i for i, it in enumerate(network.interfaces) if it.subnet == gone.subnet
                     and (it is gone or gone.point_to_point)}
        else:
            lost |= {i for i, it in enumerate(network.interfaces)
                     if network.routers[it.router] == word or network.far[i] == network.routers.index(word)}
    return Path(hops, network.routers.index(words[cut - 1]), lost, ' '.join(words))


def least_costs(network, path):
    """The least cost of each vertex to the path's target, and in how many ways it is reached."""
    into = {}
    for tail, head, cost, interface in network.edges:
        if interface not in path.lost:
            into.setdefault(head, []).append((tail, cost or 0))
    far, ways, waiting = {path.target: 0}, {path.target: 1}, [(0, path.target)]
    done = set()
    while waiting:
        here, vertex = heapq.heappop(waiting)
        if vertex in done:
            continue
        done.add(vertex)
        for tail, cost in into.get(vertex, []):
            there = here + cost
            if tail not in far or there < far[tail]:
                far[tail], ways[tail] = there, 0
                heapq.heappush(waiting, (there, tail))
            if there == far[tail]:
                ways[tail] += ways[vertex]
    return far, ways


def standing(network, path):
    """How a path stands: 'only', 'tied' or 'beaten'."""
    if not path.hops:
        return 'only'
    cost = sum(network.interfaces[i].cost or 0 for i in path.hops)
    start = network.interfaces[path.hops[0]].router
    far, ways = least_costs(network, path)
    if cost > far.get(start, cost):
        return 'beaten'
    return 'only' if ways[start] == 1 else 'tied'


def put_answer(path, network):
    """Puts in the costs of an answer's sections, and marks those that it changes."""
    with open(path, encoding='utf-8') as lines:
        router = name = None
        for line in lines:
            words = line.split()
            if words[:1] == ['router']:
                router = words[1]
            elif words[:1] == ['interface']:
                name = words[1]
            elif words[:3] == ['ip', 'ospf', 'cost']:
                it = network.interfaces[network.number(router, name)]
                it.changed, it.present, it.cost = it.cost != int(words[3]), it.cost, int(words[3])


def cost_label(it):
    """The cost of an end, as graphviz takes it."""
    text = '?' if it.cost is None else str(it.cost)
    if it.changed:
        text = '<b>%s</b>' % text if it.present is None else '%d &rarr; <b>%s</b>' % (it.present, text)
    return '<<table border="0" cellborder="0" cellpadding="1" bgcolor="white"><tr><td>%s</td></tr></table>>' % text


def read_positions(path, scale):
    """Places and names of routers."""
    found = {}
    if path:
        with open(path, encoding='utf-8') as lines:
            for line in lines:
                words = line.split()
                if words and words[0][0] != '#':
                    name = ' '.join(words[3:]) or words[0]
                    found[words[0]] = (float(words[1]) * scale, float(words[2]) * scale, name)
    return found


def links_of(network):
    """Each link once: its two vertices and its interfaces, one of them None at a subnet."""
    seen = set()
    for i, it in enumerate(network.interfaces):
        there = network.far[i]
        if there is None or i in seen:
            continue
        if there >= len(network.routers):
            yield it.router, there, i, None
        else:
            back = next(j for j, other in enumerate(network.interfaces)
                        if j != i and network.far[j] is not None and other.subnet == it.subnet)
            seen.add(back)
            yield it.router, there, i, back


def legend(network, drawn, names, title):
    rows = ['<tr><td align="left" colspan="2"><b>%s</b></td></tr>' % html.escape(title)] if title else []
    for number, path, colour, stands in drawn:
        vertices = [network.interfaces[i].router for i in path.hops] + [path.target]
        course = ', '.join(names[v] for v in vertices)
        rows.append('<tr><td align="left"><font color="%s"><b>path %d</b></font></td><td align="left">%s%s</td></tr>'
                    % (colour, number, html.escape(course), '' if stands == 'only' else ' <b>(%s)</b>' % stands))
    return '<<table border="0" cellborder="0" cellspacing="1">%s</table>>' % ''.join(rows)


def drawing(network, paths, positions, title):
    """The picture in graphviz's language."""
    names = [positions[router][2] if router in positions else router for router in network.routers]
    drawn = [(number, path, COLOURS[place % len(COLOURS)], standing(network, path))
             for place, (number, path) in enumerate(paths)]
    text = ['graph network {',
            'graph [label=%s, labelloc=b, fontname="Helvetica", fontsize=13, splines=true, overlap=false, sep="+18", '
            'outputorder=edgesfirst]' % legend(network, drawn, names, title),
            'node [shape=box, style="rounded,filled", fillcolor=white, fontname="Helvetica", fontsize=13, '
            'margin="0.08,0.04", height=0.3]',
            'edge [fontname="Helvetica", fontsize=12, len=2.2]']
    for vertex, router in enumerate(network.routers):
        place = ', pos="%.2f,%.2f!"' % positions[router][:2] if router in positions else ''
        text.append('v%d [label="%s"%s]' % (vertex, names[vertex], place))
    for number, subnet in enumerate(network.subnets):
        text.append('v%d [shape=circle, width=0.15, label="", xlabel="%s", fillcolor="%s"]'
                    % (len(network.routers) + number, subnet, LINK))
    users = {}
    for _, path, colour, stands in drawn:
        for step, i in enumerate(path.hops):
            last = step + 1 == len(path.hops)
            ends = [(i, colour, stands)]
            if network.far[i] >= len(network.routers):
                router = path.target if last else network.interfaces[path.hops[step + 1]].router
                ends += [(j, colour, stands) for j, other in enumerate(network.interfaces)
                         if other.router == router and network.far[j] == network.far[i]]
            for end in ends:
                users.setdefault(end[0], []).append(end[1:])
    for tail, head, here, there in links_of(network):
        ends = [network.interfaces[here]] + ([network.interfaces[there]] if there is not None else [])
        if len(ends) == 2 and (ends[0].cost, ends[0].present) == (ends[1].cost, ends[1].present):
            label = 'label=%s' % cost_label(ends[0])
        else:
            label = 'labeldistance=2.4, taillabel=%s' % cost_label(ends[0])
            if len(ends) == 2:
                label += ', headlabel=%s' % cost_label(ends[1])
        text.append('v%d -- v%d [color="%s", penwidth=3, %s]' % (tail, head, LINK, label))
        for colour, stands in users.get(here, []) + (users.get(there, []) if there is not None else []):
            style = 'solid' if stands == 'only' else 'dashed'
            text.append('v%d -- v%d [color="%s", penwidth=2, style=%s]' % (tail, head, colour, style))
    return '\n'.join(text + ['}', ''])


def main():
    words = argparse.ArgumentParser(description='Draws a network with its wanted paths, as SVG.')
    words.add_argument('--request', required=True)
    words.add_argument('--answer')
    words.add_argument('--positions')
    words.add_argument('--scale', type=float, default=1.0, help='inches for one unit of the positions')
    words.add_argument('--title', default='')
    words.add_argument('--failures', action='store_true', help='draw the paths that are wanted without something, too')
    words.add_argument('--output', default='picture.svg')
    words.add_argument('configs', nargs='+')
    given = words.parse_args()
    network = read_network(given.configs)
    link(network)
    lines = read_request(given.request, network)
    if given.answer:
        put_answer(given.answer, network)
    lay_edges(network)
    paths = [(number, wanted_path(network, line)) for number, line in enumerate(lines)]
    paths = [(number, path) for number, path in paths if given.failures or not path.lost]
    text = drawing(network, paths, read_positions(given.positions, given.scale), given.title)
    kind = os.path.splitext(given.output)[1][1:] or 'svg'
    ran = subprocess.run(['neato', '-T' + kind, '-o', given.output], input=text, text=True)
    sys.exit(ran.returncode)


if __name__ == '__main__':
    main()
