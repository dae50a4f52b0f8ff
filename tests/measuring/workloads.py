"""Eight workloads: each a world and a schedule over it, made of a number of units. Lines, and a tree that the workload is about, grow in
proportion to it; a tree that is its background alone doesn't. The same number makes the same texts."""
from random import Random

ONLINE = 64

# Lines of a schedule in a unit.
LINES = 3_000


def world(groups, places, online=f"0-{ONLINE - 1}", version=1):
    lines = [f"world {version}", "controllers cpuset cpu io memory", f"online {online}"]
    lines += [f"group {it}" for it in groups]
    lines += [f"proc {pid} {path}" for pid, path in places]
    return lines + ["end"]


def some_cpus(chance, most=ONLINE, runs=1):
    """A list of CPUs below that number, of so many runs."""
    starts = [chance.randrange(most) for _ in range(runs)]
    return ",".join(f"{start}-{min(most - 1, start + chance.randrange(most // 4))}" for start in starts)


def limited(lines, most):
    """So many lines, and those that the transaction in which they end still has."""
    for number, line in enumerate(lines):
        yield line
        if number >= most and line.endswith((" commit", " abort")):
            return


def deep(units):
    """Chains of 64 groups, cpuset passed on along each, which are made, visited at their ends and taken away."""
    chance = Random("deep")

    def lines():
        for chain in range(LINES * units):
            names = [f"c{chain}", *(f"{chance.choice('abcdefgh')}{depth}" for depth in range(2, 65))]
            ends = ["/" + "/".join(names[:depth]) for depth in range(1, 65)]
            yield "A begin"
            for depth, path in enumerate(ends, start=1):
                yield f"A create {path}"
                if depth < 64:
                    yield f"A subtree {path} +cpuset"
                if depth % 8 == 0:
                    yield f"A cpus {path} 0-{71 - depth}"
            yield "A commit"
            for visit in range(40):
                yield from visited(ends, visit)
            yield "A begin"
            yield from (f"A remove {path}" for path in reversed(ends))
            yield "A commit"

    def visited(ends, visit):
        leaf, middle, pid = ends[-1], chance.choice(ends[:-1]), chance.randrange(1, 33)
        other = f"{ends[-2]}/x{visit}"
        yield "A begin"
        yield f"A freeze {middle} 1"
        yield f"A show {leaf} cgroup.events"
        yield f"A migrate {pid} {leaf}"
        yield f"A show {leaf} cgroup.procs"
        yield f"A cpus {leaf} {some_cpus(chance)}"
        yield f"A show {leaf} cpuset.cpus.effective"
        yield f"A create {other}"
        yield f"A show {other} cgroup.controllers"
        yield f"A remove {other}"
        yield f"A migrate {pid} /"
        yield f"A freeze {middle} 0"
        yield "A abort" if visit % 8 == 7 else "A commit"

    return world(["/ cpuset,cpu 0 -"], [(pid, "/") for pid in range(1, 33)]), limited(lines(), LINES * units)


def wide(units):
    """A group with very many children, made in no order; what changes single ones, and 16 times what asks all of them."""
    chance, count = Random("wide"), LINES * units // 3

    def child(number):
        return f"/w/{number * 7_919 % 1_000_003:06}"

    def lines():
        for first in range(0, count, 1_000):
            yield "A begin"
            yield from (f"A create {child(number)}" for number in range(first, min(first + 1_000, count)))
            yield "A commit"
        for _ in range(16):
            yield from ("A begin", "A subtree /w -cpu", "A subtree /w -cpuset", "A undo", "A remove /w", "A subtree /w +io", "A abort")
            for _ in range(count // 160):
                yield "A begin"
                yield from (line for _ in range(20) for line in one(child(chance.randrange(count))))
                yield "A abort" if chance.random() < 0.25 else "A commit"

    def one(path):
        match chance.randrange(6):
            case 0:
                return [f"A show {path} cgroup.events"]
            case 1:
                return [f"A show {path} cpuset.cpus.effective"]
            case 2:
                return [f"A freeze {path} {chance.randrange(2)}"]
            case 3:
                return [f"A cpus {path} {some_cpus(chance)}"]
            case 4:
                return [f"A remove {path}", f"A create {path}"]
        return [f"A migrate {chance.randrange(1, 65)} {path}"]

    groups = ["/ cpuset,cpu,io 0 -", "/w cpuset,cpu 0 -"]
    return world(groups, [(pid, "/") for pid in range(1, 65)]), lines()


def churn(units):
    """Small transactions of four sessions, which make groups and take them away, move processes and change settings."""
    chance = Random("churn")
    tops = [f"/g{number}" for number in range(16)]
    leaves = [f"{top}/s{number}" for top in tops for number in range(16)]

    def lines():
        for turn in range(LINES * units):
            who = "ABCD"[turn % 4]
            yield f"{who} begin"
            for step in range(chance.randrange(3, 8)):
                match chance.randrange(6):
                    case 0:
                        yield f"{who} cpus {chance.choice(leaves)} {some_cpus(chance)}"
                    case 1:
                        yield f"{who} freeze {chance.choice(leaves)} {chance.randrange(2)}"
                    case 2:
                        yield f"{who} show {chance.choice(leaves)} cgroup.events"
                    case 3:
                        yield f"{who} create {chance.choice(tops)}/t{chance.randrange(400)}"
                    case 4:
                        yield f"{who} remove {chance.choice(tops)}/t{chance.randrange(400)}"
                    case _:
                        yield f"{who} migrate {chance.randrange(1, 1_025)} {chance.choice(leaves)}"
            yield f"{who} abort" if chance.random() < 0.1 else f"{who} commit"

    groups = ["/ cpuset,cpu 0 -", *(f"{top} cpuset 0 -" for top in tops), *(f"{leaf} - 0 -" for leaf in leaves)]
    return world(groups, [(pid, chance.choice(leaves)) for pid in range(1, 1_025)]), limited(lines(), LINES * units)


def undo(units):
    """Long transactions with savepoints, undos and returns, every other one aborted."""
    chance, length = Random("undo"), 200 * units
    tops = [f"/u{number}" for number in range(64)]

    def lines():
        made = 0
        for turn in range(LINES * units):
            yield "A begin"
            saves = []
            for step in range(length):
                where, draw = chance.choice(tops), chance.randrange(100)
                if draw < 25:
                    yield "A undo"
                elif draw < 29:
                    saves.append(f"m{step}")
                    yield f"A save {saves[-1]}"
                elif draw < 31 and saves:
                    yield f"A back {saves.pop()}"
                elif draw < 60:
                    made += 1
                    yield f"A create {where}/n{made}"
                elif draw < 70:
                    yield f"A cpus {where} {some_cpus(chance)}"
                elif draw < 80:
                    yield f"A freeze {where} {chance.randrange(2)}"
                elif draw < 90:
                    yield f"A migrate {chance.randrange(1, 129)} {where}/p"
                else:
                    yield f"A show {where}/p cgroup.events"
            yield "A commit" if turn % 2 else "A abort"

    groups = ["/ cpuset 0 -", *(line for top in tops for line in (f"{top} cpuset 0 -", f"{top}/p - 0 -"))]
    return world(groups, [(pid, "/") for pid in range(1, 129)]), limited(lines(), LINES * units)


def clash(units):
    """64 sessions, each at work in a part of its own and now and then in another's, or over all."""
    chance = Random("clash")
    tops = [f"/t{number}" for number in range(64)]

    def lines():
        left, made = [0] * 64, 0
        for _ in range(LINES * units):
            own = chance.randrange(64)
            who, part = f"S{own}", own if chance.random() < 0.7 else chance.randrange(64)
            if left[own] == 0:
                left[own] = chance.randrange(20, 320)
                yield f"{who} begin"
                continue
            left[own] -= 1
            if left[own] == 0:
                yield f"{who} abort" if chance.random() < 0.3 else f"{who} commit"
                continue
            child = f"{tops[part]}/c{chance.randrange(8)}"
            match chance.randrange(8):
                case 0 | 1:
                    yield f"{who} show {child} cgroup.events"
                case 2:
                    yield f"{who} freeze {child} {chance.randrange(2)}"
                case 3:
                    yield f"{who} cpus {child} {some_cpus(chance)}"
                case 4:
                    made += 1
                    yield f"{who} create {child}/n{made}"
                case 5:
                    yield f"{who} migrate {4 * part + chance.randrange(1, 5)} {child}"
                case 6:
                    yield f"{who} undo"
                case _:
                    yield f"{who} " + chance.choice(("subtree / +io", "show / cgroup.procs", "online 0-31", f"show {child} cgroup.procs"))

    groups = ["/ cpuset,cpu 0 -", *(f"{top} cpuset 0 -" for top in tops)]
    groups += [f"{top}/c{number} - 0 -" for top in tops for number in range(8)]
    places = [(4 * part + number, f"{top}/c{number}") for part, top in enumerate(tops) for number in range(1, 5)]
    return world(groups, places), lines()


def great_tree(chance, count, online, limits=""):
    """The lines of so many groups, most inner ones with cpuset passed on; their paths, and those that may have processes."""
    paths, passed, depths, inner, lines = ["/"], [True], [0], [0], [f"/ cpuset 0 -{limits}"]
    for number in range(1, count):
        parent = chance.choice(inner)
        has = passed[parent]
        passes = has and depths[parent] < 9 and chance.random() < 0.4
        paths.append(f"{paths[parent].rstrip('/')}/{chance.choice('abcdefgh')}{number:x}")
        passed.append(passes)
        depths.append(depths[parent] + 1)
        if passes or depths[-1] < 10 and chance.random() < 0.05:
            inner.append(number)
        cpus = some_cpus(chance, online, chance.randrange(1, 3)) if has and chance.random() < 0.6 else "-"
        lines.append(f"{paths[-1]} {'cpuset' if passes else '-'} {int(chance.random() < 0.05)} {cpus}{limits}")
    return lines, paths, [path for path, passes in zip(paths[1:], passed[1:]) if not passes]


def readers(units):
    """Eight sessions that read files of a great tree with twice as many processes as groups, and seldom write."""
    chance = Random("readers")
    groups, paths, free = great_tree(chance, 64 * units, ONLINE)

    def lines():
        yield from (f"R{number} begin" for number in range(8))
        for _ in range(LINES * units):
            who, draw = f"R{chance.randrange(8)}", chance.randrange(200)
            if draw < 70:
                yield f"{who} show {chance.choice(paths[1:])} cgroup.events"
            elif draw < 140:
                yield f"{who} show {chance.choice(paths[1:])} cpuset.cpus.effective"
            elif draw < 190:
                yield f"{who} show {chance.choice(free)} cgroup.procs"
            elif draw < 195:
                yield f"{who} freeze {chance.choice(paths[1:])} {chance.randrange(2)}"
            elif draw < 197:
                yield f"{who} migrate {chance.randrange(1, 128 * units + 1)} {chance.choice(free)}"
            else:
                yield f"{who} commit"
                yield f"{who} begin"

    return world(groups, [(pid, chance.choice(free)) for pid in range(1, 128 * units + 1)]), lines()


def limits(units):
    """Groups made and taken away below ancestors that are limited in number and depth, and the limits changed."""
    chance = Random("limits")
    tops = [f"/l{number}" for number in range(16)]
    chains = [top + "".join(f"/d{depth}" for depth in range(length)) for top in tops for length in range(32)]

    def lines():
        for turn in range(LINES * units):
            who = "ABCD"[turn % 4]
            yield f"{who} begin"
            for _ in range(chance.randrange(4, 12)):
                path = chance.choice(chains)
                match chance.randrange(8):
                    case 0:
                        yield f"{who} maxdescendants {path} {chance.choice(('max', '60', '1000'))}"
                    case 1:
                        yield f"{who} maxdepth {path} {chance.choice(('max', '40', '8'))}"
                    case 2 | 3 | 4:
                        yield f"{who} create {path}/n{chance.randrange(20)}"
                    case _:
                        yield f"{who} remove {path}/n{chance.randrange(20)}"
            yield f"{who} abort" if chance.random() < 0.25 else f"{who} commit"

    groups = ["/ - 0 - 100000 64", *(f"{path} - 0 - {chance.choice(('max', '500'))} max" for path in chains)]
    return world(groups, [], version=2), limited(lines(), LINES * units)


def hotplug(units):
    """CPUs that go and come over a great tree of a computer that has 1,024."""
    chance = Random("hotplug")
    groups, paths, _ = great_tree(chance, 32 * units, 1_024, " max max")

    def lines():
        for turn in range(8 * units):
            yield "A begin"
            yield f"A online {some_cpus(chance, 1_024, 3)}"
            yield from (f"A show {chance.choice(paths[1:])} cpuset.cpus.effective" for _ in range(16))
            yield "A abort" if turn % 4 == 3 else "A commit"

    return world(groups, [(pid, "/") for pid in range(1, 65)], "0-1023", 2), lines()


ALL = (deep, wide, churn, undo, clash, readers, limits, hotplug)
