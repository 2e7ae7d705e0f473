"""The bound: every way through a function is followed with the stack that it has taken so far, and calls add what the called function may take."""
from objects import Refused


def own(function, machine):
    """The deepest byte that the function itself touches, and what it calls: [(function or outside name, depth, whether it is a jump)]."""
    archive = function.archive
    at = {instruction.address: n for n, instruction in enumerate(function.code)}
    seen, waiting, deepest, calls = {}, [(function.start, machine.ENTRY)], machine.ENTRY.depth, []
    while waiting:
        address, place = waiting.pop()
        if address in seen:
            if seen[address].depth != place.depth:
                raise told(function, address, f"{seen[address].depth} bytes of stack by one way and {place.depth} by another")
            if seen[address] == place or seen[address].frame is None:
                continue
            place = type(place)(place.depth)  # two frame pointers meet: neither is known
        seen[address] = place
        if address not in at:
            raise told(function, address, "no instruction begins there")
        instruction = function.code[at[address]]
        try:
            step = machine.step(instruction, place, lambda: machine.table_targets(function, archive))
        except Refused as why:
            raise told(function, address, f"{why}: `{instruction.text}`") from None
        if step.after.depth < 0:
            raise told(function, address, "more is taken from the stack than was put there")
        deepest = max(deepest, step.touched, step.after.depth)
        if step.call:
            calls.append((resolved(step.call[0], function, archive), step.call[1], False))
        for jump in step.jumps:
            inside = within(jump, function, archive)
            if inside is not None:
                waiting.append((inside, step.after))
            else:
                calls.append((resolved(jump, function, archive), step.after.depth - machine.ENTRY.depth, True))
        if step.falls:
            if at[address] + 1 == len(function.code):
                raise told(function, address, "control runs off the function's end")
            waiting.append((function.code[at[address] + 1].address, step.after))
    return deepest, calls


def told(function, address, why):
    return Refused(f"{function.name}+{address - function.start:#x}: {why}")


def within(jump, function, archive):
    """The address of a jump that stays in the function, or nothing. A jump to the function's first instruction stays: it calls nothing."""
    if isinstance(jump, int):
        return jump if function.start <= jump < function.end() else None
    meant = archive.meant(function.member, *jump)
    return meant[1] if meant and meant[0] is function else None


def resolved(where, function, archive):
    """The function that is called, or the name of one outside."""
    if isinstance(where, int):
        found = archive.at(function.member, function.section, where)
        if found is None or found.start != where:
            raise Refused(f"{function.name}: a call to {where:#x}, where no function begins")
        return found
    meant = archive.meant(function.member, *where)
    if meant is None:
        return where[0]
    if meant[0].start != meant[1]:
        raise Refused(f"{function.name}: a call into the middle of {meant[0].name}")
    return meant[0]


class Bounds:
    """The bounds of functions. `deep` says of one that calls itself how often it may be entered; `outside` what one takes that is not in the
    archive, and the libraries have others, which are walked through as well."""

    def __init__(self, machine, deep, outside, libraries):
        self.machine, self.deep, self.outside, self.libraries = machine, deep, outside, libraries
        self.known, self.open, self.used, self.repeated = {}, [], {}, set()

    def of(self, function):
        """(bytes, the ways down to there as names)."""
        if isinstance(function, str):
            return self.beyond(function)
        if function in self.known:
            return self.known[function]
        if function in self.open:
            circle = [f.name for f in self.open[self.open.index(function):]] + [function.name]
            raise Refused("functions that call each other in a circle: " + ", ".join(circle))
        self.open.append(function)
        found = self.measured(function)
        self.open.pop()
        self.known[function] = found
        return found

    def measured(self, function):
        deepest, calls = own(function, self.machine)
        again = [depth for called, depth, _ in calls if called is function]
        best = (deepest, [])
        for called, depth, _ in calls:
            if called is not function:
                size, way = self.of(called)
                best = max(best, (depth + size, way), key=lambda b: b[0])
        if not again:
            return best[0], [function.name] + best[1]
        times = self.times(function)
        return (times - 1) * max(again) + best[0], [f"{function.name} ({times} times)"] + best[1]

    def times(self, function):
        if function.name not in self.deep:
            raise Refused(f"{function.name} calls itself, and nothing says how often")
        self.repeated.add(function.name)
        return self.deep[function.name]

    def beyond(self, name):
        if name not in self.outside:
            found = next((f for f in (library.function(name) for library in self.libraries) if f), None)
            if found is None:
                raise Refused(f"{name} is not in the archive, and nothing says what it takes")
            size, way = self.of(found)
            self.used[name] = size
            return size, way
        self.used[name] = self.outside[name]
        return self.outside[name], [name]


