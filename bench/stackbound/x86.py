"""x86-64, as the System V ABI has it: the return address is on the stack, and a function may use the 128 bytes below its stack pointer unasked."""
import re
from objects import Refused
from steps import Place, Step

NAME = "x86-64"
TOOLS = ""
WORD = 8
ENTRY = Place(WORD)
RED_ZONE = 128
# What the C library's copies take: their return address. They are leaves without a frame in the GNU C library, as `bench/stack` sees.
OUTSIDE = {"memcpy": WORD, "memmove": WORD, "memset": WORD}

BELOW = re.compile(r"-0x([0-9a-f]+)\(%rsp(,?)")
ENDS = {"ret", "retq", "ud2", "hlt", "int3"}
READS_ALONE = ("cmp", "test")


def operands(text):
    """The operands, split at commas outside brackets, in AT&T order: what is written comes last."""
    return [part.strip() for part in re.split(r",(?![^(]*\))", text)] if text else []


def is_frame_write(name, given):
    return bool(given) and given[-1] in ("%rbp", "%ebp") and not name.startswith(READS_ALONE + ("push",))


def moved(name, given, place):
    """How the stack pointer stands after an instruction that names it as what is written."""
    number = re.fullmatch(r"\$0x([0-9a-f]+)", given[0])
    beside = re.fullmatch(r"(-?)0x([0-9a-f]+)\((%rsp|%rbp)\)", given[0])
    if name in ("sub", "add") and number:
        size = int(number.group(1), 16)
        size = size - 2**64 if size >= 2**63 else size
        return place.depth + (size if name == "sub" else -size)
    if name == "lea" and beside and (beside.group(3) == "%rsp" or place.frame is not None):
        size = int(beside.group(2), 16) * (1 if beside.group(1) else -1)
        return (place.depth if beside.group(3) == "%rsp" else place.frame) + size
    if name == "mov" and given[0] == "%rbp" and place.frame is not None:
        return place.frame
    raise Refused("the stack pointer is moved by what is known only when it runs")


def touched(name, text, depth):
    """Bytes below the stack pointer: where an index or an address taken hides which, all that the ABI allows."""
    deepest = depth
    for size, indexed in BELOW.findall(text):
        hidden = indexed or name.startswith("lea")
        deepest = max(deepest, depth + (RED_ZONE if hidden else int(size, 16)))
        if int(size, 16) > RED_ZONE:
            raise Refused("the stack is used further below its pointer than the ABI allows")
    return deepest


def step(instruction, place, tables):
    """What an instruction does. `tables` gives the places that a jump through a table may reach."""
    words = instruction.text.split(None, 1)
    while words[0] in ("notrack", "bnd", "rep", "repz", "repnz", "lock", "data16", "cs") and len(words) > 1:
        words = words[1].split(None, 1)
    name, rest = words[0], words[1] if len(words) > 1 else ""
    if name in ENDS:
        return Step(place, falls=False, touched=place.depth)
    if name.startswith("call"):
        return Step(place, call=(target(instruction, rest), place.depth), touched=place.depth)
    if name.startswith(("j", "loop")):
        return jump(instruction, name, rest, place, tables)
    return plain(name, rest, place)


def target(instruction, rest):
    """What a call or a jump names: a relocation's symbol, or an address of its own section."""
    if rest.startswith("*"):
        raise Refused("a call through a register or through memory")
    for kind, symbol, addend in instruction.names:
        if kind not in ("R_X86_64_PLT32", "R_X86_64_PC32"):
            raise Refused(f"a call by {kind}")
        return symbol, addend + 4
    return int(rest.split()[0], 16)


def jump(instruction, name, rest, place, tables):
    if rest.startswith("*"):
        return Step(place, falls=False, jumps=tables(), touched=place.depth)
    where = target(instruction, rest)
    return Step(place, falls=name != "jmp", jumps=(where,), touched=place.depth)


def plain(name, rest, place):
    given = operands(rest)
    depth, frame = place.depth, place.frame
    below = touched(name, rest, depth)
    if name.startswith("push"):
        depth += WORD
    elif name.startswith("pop"):
        if given[0] in ("%rsp", "%esp"):
            raise Refused("the stack pointer is popped")
        depth -= WORD
    elif name.startswith("leave"):
        if frame is None:
            raise Refused("`leave` without a frame pointer")
        depth = frame - WORD
    elif given and given[-1] in ("%rsp", "%esp", "%sp", "%spl") and not name.startswith(READS_ALONE):
        depth = moved(name.rstrip("q"), given, place)
    elif name.startswith(("xchg", "enter", "cmpxchg", "xadd")) and "%rsp" in given:
        raise Refused("the stack pointer is exchanged")
    if is_frame_write(name, given) or name.startswith("leave"):
        frame = depth if given[:1] == ["%rsp"] and name.startswith("mov") else None
    return Step(Place(depth, frame), touched=max(below, depth))


def code_pointers(function, archive):
    """Where a function takes the address of a table, by section: PC-relative, so less the four bytes of the displacement itself."""
    bases = {}
    for instruction in function.code:
        for kind, symbol, addend in instruction.names:
            if kind == "R_X86_64_PC32":
                bases.setdefault(symbol, set()).add(addend + 4)
            elif kind in ("R_X86_64_32S", "R_X86_64_32", "R_X86_64_64"):
                bases.setdefault(symbol, set()).add(addend)
    return bases


def table_targets(function, archive):
    """Every place of the function that a table which it names may send it to. An entry is relative to its table, or an address."""
    found = set()
    for section, bases in code_pointers(function, archive).items():
        for offset, kind, symbol, addend in archive.data.get((function.member, section), []):
            base = max((b for b in bases if b <= offset), default=None)
            if base is None:
                continue
            meant = archive.meant(function.member, symbol, addend - (offset - base) if kind == "R_X86_64_PC32" else addend)
            if meant is None or meant[0] is not function:
                raise Refused(f"a table of jumps that leaves the function, at {section}+{offset:#x}")
            found.add(meant[1])
    if not found:
        raise Refused("a jump through a register without a table")
    return tuple(sorted(found))
