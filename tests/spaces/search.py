"""All worlds of a program, by the machine of machine.py: how they end, what spins, what claims and expectations say of
them."""

import collections

import machine

# the statuses of the lab, and the order in which they are told, the worst first
DONE, UNEXPECTED, DEADLOCK, ENDLESS = 0, 3, 4, 5
WORST_FIRST = (DEADLOCK, UNEXPECTED, ENDLESS, DONE)


def worst(statuses):
    """The worst of some statuses."""
    return min(statuses, key=WORST_FIRST.index, default=DONE)


class Space:
    """All worlds that schedules lead to which begin with some steps, each with a shortest one; None in `distance` of a
    space that has more than `most`."""

    def __init__(self, program, begin, most):
        self.program, self.most = program, most
        self.before = []
        world = machine.start(program)
        for p, s in begin:
            self.before.append(world)
            world, _ = machine.step(program, world, p, s)
        self.first, self.begin = world, tuple(begin)
        self.distance, self.after, self.stays = {world: len(begin)}, {}, {}
        self.is_whole = self.search()

    def search(self):
        """Goes through the worlds, those of fewer steps first, and says whether these are all."""
        waiting = collections.deque([self.first])
        while waiting:
            world = waiting.popleft()
            self.after[world], self.stays[world] = [], []
            for p, s in machine.running(world):
                to, outcome = machine.step(self.program, world, p, s)
                if to == world:
                    self.stays[world].append(outcome)
                    continue
                self.after[world].append(to)
                if to not in self.distance:
                    self.distance[to] = self.distance[world] + 1
                    waiting.append(to)
            if len(self.distance) > self.most:
                return False
        return True

    def steps(self):
        """How many steps lead from one world to another."""
        return sum(map(len, self.after.values()))

    def kind(self, world):
        """How a world ends; None where it goes on."""
        streams = machine.running(world)
        if not streams:
            return "stopped" if stopped(world) else "finished"
        stays = self.stays[world]
        return "deadlock" if len(stays) == len(streams) and set(stays) == {"blocked"} else None

    def ends(self):
        """The worlds that are ends, each with its kind."""
        kinds = {world: self.kind(world) for world in self.distance}
        return {world: kind for world, kind in kinds.items() if kind}

    def leading_to(self, ends):
        """The worlds from which steps lead to one of these, and these."""
        before = collections.defaultdict(list)
        for world, following in self.after.items():
            for to in following:
                before[to].append(world)
        found, waiting = set(ends), list(ends)
        while waiting:
            for world in before[waiting.pop()]:
                if world not in found:
                    found.add(world)
                    waiting.append(world)
        return found

    def spinning(self):
        """The sets of worlds that no step leads out of, and that have no end."""
        left = set(self.distance) - self.leading_to(self.ends())
        reached = {world: self.reached_from(world) for world in left}
        return {found for found in reached.values() if all(reached[world] == found for world in found)}

    def reached_from(self, world):
        """The worlds that steps lead to from a world, and itself."""
        found, waiting = {world}, [world]
        while waiting:
            for to in self.after[waiting.pop()]:
                if to not in found:
                    found.add(to)
                    waiting.append(to)
        return frozenset(found)

    def shortest_round(self, world):
        """How many steps the shortest way from a world back to it has, or a step that stays there."""
        if not self.after[world]:
            return 1
        found, reached, count = set(), {world}, 0
        while reached and world not in found:
            reached = {to for here in reached for to in self.after[here]} - found
            found |= reached
            count += 1
        return count


def world_after(program, schedule):
    """The world that a schedule of a program leads to."""
    world = machine.start(program)
    for p, s in schedule:
        world, _ = machine.step(program, world, p, s)
    return world


def stopped(world):
    """The streams that a trap stopped, with its number."""
    return {(p, s): int(stream.status.split()[1]) for p, processor in enumerate(world.processors)
            for s, stream in enumerate(processor.streams) if stream.status.startswith("stopped")}
