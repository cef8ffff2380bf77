#!/usr/bin/env python3
"""What the program survey must print for a plan that can be closed, by networkx.

    tools/survey_reference.py PLAN           prints it
    tools/survey_reference.py --random N     compares N random plans with the program crates/survey/out/survey

The second wants the program, which `./survey PLAN` builds. Both stand outside the gate.
"""
import random
import subprocess
import sys
import tempfile
from pathlib import Path

import networkx as nx

SCALE = 10**12  # paid segments come first: one weighs more than any delay


def parse(text):
    lines = text.split("\n")
    kind, k, n, m = lines[1].split(" ")
    n, m = int(n), int(m)
    relays = [tuple(map(int, line.split(" "))) for line in lines[3 : 3 + n]]
    links = [tuple(map(int, line.split(" "))) for line in lines[4 + n : 4 + n + m]]
    return kind, int(k), relays, links


def weight(kind, cost):
    return cost[0] if kind == "D" else cost[0] * SCALE + cost[1]


def field(kind, value):
    return str(value) if kind == "D" else f"{value // SCALE}+{value % SCALE}"


def shown(kind, cost):
    return f"delay {cost[0]}" if kind == "D" else f"paid {cost[0]} delay {cost[1]}"


def report(text):
    kind, k, relays, links = parse(text)
    names = [name for name, _ in relays]
    out = [f"kind: {'delay' if kind == 'D' else 'paid'}"]
    for i, (name, colour) in enumerate(relays):
        out.append(f"relay {i}: name {name}, colour {colour}")
    ports = dict.fromkeys(names, 0)
    graph = nx.Graph()
    graph.add_nodes_from(range(len(names)))
    number = {name: i for i, name in enumerate(names)}
    for j, (a, b, *cost) in enumerate(links):
        out.append(f"link {j}: from {a} (port {ports[a]}) to {b} (port {ports[b]}), {shown(kind, cost)}")
        ports[a] += 1
        ports[b] += 1
        graph.add_edge(number[a], number[b], weight=weight(kind, cost))
    out.append(f"closed: {k} colours, {len(names)} relays, {len(links)} links")
    distance = dict(nx.all_pairs_dijkstra_path_length(graph))
    heading = "".join(f" {name:>16}" for name in names)
    out.append(f"{'distance':>16}{heading}")
    for u, name in enumerate(names):
        out.append(f"{name:>16}" + "".join(f" {field(kind, distance[u][v]):>16}" for v in range(len(names))))
    out.append(f"{'next':>16}{heading}")
    for u, name in enumerate(names):
        row = f"{name:>16}"
        for x in range(len(names)):
            steps = [r for r in graph[u] if graph[u][r]["weight"] + distance[r][x] == distance[u][x]]
            row += f" {names[u if u == x else min(steps)]:>16}"
        out.append(row)
    sizes = []
    for u, name in enumerate(names):
        order = sorted(range(len(names)), key=lambda x: (distance[u][x], x))
        size = next(b for b in range(len(names) + 1) if {relays[x][1] for x in order[:b]} >= set(range(1, k + 1)))
        sizes.append(size)
        managers = [next(x for x in order if relays[x][1] == c) for c in range(1, k + 1)]
        ball = "".join(f" {names[x]}" for x in order[:size])
        held = "".join(f" {names[x]}" for x in managers)
        out.append(f"near {name}: ball of {size}:{ball}; managers:{held}; home: {names[managers[0]]}")
    tenths = sum(sizes) * 10 // len(names)
    out.append(f"largest ball: {max(sizes)}; mean: {tenths // 10}.{tenths % 10}")
    return "\n".join(out) + "\n"


def random_plan(rng):
    kind = rng.choice("DP")
    n = rng.choice([rng.randint(1, 24), rng.randint(1, 24), rng.randint(1, 24), 60])
    k = rng.randint(1, min(4, n))
    names = rng.sample(range(1, 2**32), n)
    colours = list(range(1, k + 1)) + [rng.randint(1, k) for _ in range(n - k)]
    rng.shuffle(colours)
    pairs = {tuple(sorted((i, rng.randrange(i)))) for i in range(1, n)}
    for _ in range(rng.randint(0, 2 * n)):
        if n > 1:
            pairs.add(tuple(sorted(rng.sample(range(n), 2))))
    pairs = sorted(pairs)
    rng.shuffle(pairs)
    top = rng.choice([2, 5, 1_000_000])  # few values make many ties
    lines = ["kind colours relays links", f"{kind} {k} {n} {len(pairs)}", "name colour"]
    lines += [f"{name} {colour}" for name, colour in zip(names, colours)]
    lines.append("from to delay" if kind == "D" else "from to paid delay")
    for i, j in pairs:
        a, b = rng.choice([(i, j), (j, i)])
        paid = "" if kind == "D" else f"{rng.randint(0, rng.choice([3, 1000]))} "
        lines.append(f"{names[a]} {names[b]} {paid}{rng.randint(1, top)}")
    return "\n".join(lines) + "\n"


def compare(count):
    program = Path(__file__).resolve().parent.parent / "crates/survey/out/survey"
    rng = random.Random(7)
    different = 0
    for _ in range(count):
        text = random_plan(rng)
        with tempfile.TemporaryDirectory() as room:
            Path(room, "plan.txt").write_text(text)
            found = subprocess.run([program], cwd=room, capture_output=True, text=True, check=True).stdout
        tables = [line for line in found.split("\n") if line.startswith("      ")]
        if found != report(text) or len({len(line) for line in tables}) != 1:
            different += 1
            print(text)
    print(f"{count} random plans, {different} differ")
    return 1 if different else 0


if __name__ == "__main__":
    if sys.argv[1] == "--random":
        sys.exit(compare(int(sys.argv[2])))
    sys.stdout.write(report(Path(sys.argv[1]).read_text()))
