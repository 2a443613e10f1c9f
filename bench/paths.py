"""Cheapest paths and rivals in a problem's network, at costs that may be fractions."""
import heapq

# How far a rival's cost has to be below what it should be, so that a solver's rounding doesn't count.
CLOSE = 1e-6


def distances(problem, into, cost, target, lost, barred):
    """Each router's least cost to `target`, without the edges of `lost` and the routers of `barred`."""
    far = [None] * len(problem.routers)
    far[target] = 0
    waiting = [(0, target)]
    while waiting:
        here, router = heapq.heappop(waiting)
        if here > far[router]:
            continue
        for edge in into[router]:
            before = problem.tail[edge]
            if before in barred or edge in lost:
                continue
            there = here + cost[edge]
            if far[before] is None or there < far[before]:
                far[before] = there
                heapq.heappush(waiting, (there, before))
    return far


def follow(problem, out, cost, far, router, target, lost, barred):
    """The edges of a cheapest path from `router` to `target` by its distances."""
    edges = []
    while router != target:
        edge = min((e for e in out[router] if e not in lost and problem.head[e] not in barred
                    and far[problem.head[e]] is not None), key=lambda e: cost[e] + far[problem.head[e]])
        edges.append(edge)
        router = problem.head[edge]
    return edges


def rivals(problem, into, out, cost, request):
    """Of the rivals that leave the wanted path at each of its routers the cheapest, where it costs less than one more
    than the wanted path: distances to the target without the routers passed so far."""
    total = sum(cost[e] for e in request.edges)
    barred, spent = set(), 0
    for place, wanted in enumerate(request.edges):
        router = problem.tail[wanted]
        barred.add(router)
        far = distances(problem, into, cost, request.target, request.excluded, barred)
        leaving = [e for e in out[router] if e != wanted and e not in request.excluded
                   and problem.head[e] not in barred and far[problem.head[e]] is not None]
        if leaving:
            edge = min(leaving, key=lambda e: cost[e] + far[problem.head[e]])
            if spent + cost[edge] + far[problem.head[edge]] < total + 1 - CLOSE:
                rest = follow(problem, out, cost, far, problem.head[edge], request.target, request.excluded, barred)
                yield tuple(request.edges[:place]) + (edge,) + tuple(rest)
        spent += cost[wanted]
