"""Thumb, as Cortex-M has it: the return address comes in a register, and nothing below the stack pointer is used. What an interrupt puts on the same
stack is beside these bounds."""
import re
from objects import Refused
from steps import Place, Step

NAME = "Cortex-M33"
TOOLS = "arm-none-eabi-"
WORD = 4
ENTRY = Place(0)
# Nothing is known of what the copies and the long division take: a library is named for them, or their bytes.
OUTSIDE = {}

CONDITION = "(eq|ne|cs|hs|cc|lo|mi|pl|vs|vc|hi|ls|ge|lt|gt|le)"
CALLS = ("R_ARM_THM_CALL", "R_ARM_THM_JUMP24", "R_ARM_THM_JUMP19")
INDEX = {"tbb": 1, "tbh": 2}


def parts(text):
    """The name without its width, whether it has a condition, and the operands."""
    words = re.split(r"[@;]", text)[0].split(None, 1)
    name, rest = re.sub(r"\.[nw]$", "", words[0]), words[1].strip() if len(words) > 1 else ""
    known = re.fullmatch(rf"(push|pop|bx|blx|bl|ldmia|stmdb|vpush|vpop|ldr|mov|add|sub|addw|subw|str){CONDITION}", name)
    if re.fullmatch(rf"b{CONDITION}", name):
        return "b", True, rest
    return (known.group(1), True, rest) if known else (name, False, rest)


def registers(text):
    """How many registers a list in braces has, and whether the program counter is one."""
    inside = re.search(r"\{(.+)\}", text).group(1)
    count = 0
    for one in inside.split(","):
        ends = re.findall(r"[a-z]+(\d+)", one)
        count += int(ends[1]) - int(ends[0]) + 1 if "-" in one else 1
    return count, bool(re.search(r"\bpc\b", inside)), "d" in inside


def step(instruction, place, tables):
    name, maybe, rest = parts(instruction.text)
    if instruction.text.startswith("."):
        raise Refused("data where an instruction is due")
    if name in ("udf", "bkpt"):
        return Step(place, falls=False, touched=place.depth)
    if name in ("bl", "blx", "b", "cbz", "cbnz", "bx"):
        return transfer(instruction, name, maybe, rest, place)
    if name in INDEX:
        return Step(place, falls=False, jumps=tables(), touched=place.depth)
    depth, leaves = stacked(name, rest, place.depth)
    if maybe and depth != place.depth and not leaves:
        raise Refused("the stack pointer moves where a condition holds")
    if leaves:
        return Step(place, falls=maybe, touched=place.depth)
    return Step(Place(depth), touched=max(depth, place.depth))


def transfer(instruction, name, maybe, rest, place):
    if name == "bx" and rest == "lr":
        return Step(place, falls=maybe, touched=place.depth)
    if name in ("bx", "blx") and not instruction.names and not rest[:1].isdigit() and re.fullmatch(r"[a-z]+\d*", rest):
        raise Refused("a call or a jump through a register")
    where = target(instruction, rest)
    if name in ("bl", "blx"):
        return Step(place, call=(where, place.depth), touched=place.depth)
    return Step(place, falls=maybe or name != "b", jumps=(where,), touched=place.depth)


def target(instruction, rest):
    for kind, symbol, addend in instruction.names:
        if kind not in CALLS:
            raise Refused(f"a call by {kind}")
        return symbol, addend
    return int(rest.split(",")[-1].split()[0], 16)


def stacked(name, rest, depth):
    """The depth after an instruction that is no jump, and whether it leaves the function."""
    listed = name in ("push", "pop", "vpush", "vpop") or (name in ("stmdb", "ldmia") and rest.startswith("sp!"))
    if listed:
        count, leaves, wide = registers(rest)
        size = count * (2 * WORD if wide and name.startswith("v") else WORD)
        return depth + (size if name in ("push", "vpush", "stmdb") else -size), leaves
    given = [part.strip() for part in rest.split(",")]
    if found := re.search(r"\[sp, #(-?\d+)\]!", rest):
        return depth - int(found.group(1)), False
    if found := re.search(r"\[sp\], #(-?\d+)", rest):
        return depth - int(found.group(1)), given[0] == "pc"
    if given[0] == "sp" and not name.startswith(("cmp", "str", "tst", "cmn", "stm", "ldm")):
        return moved(name, given, depth), False
    if given[0] == "pc":
        if name == "mov" and given[1] == "lr":
            return depth, True
        raise Refused("a jump through a register or through memory")
    if "sp!" in rest:
        raise Refused("the stack pointer is moved in a way that is not known here")
    return depth, False


def moved(name, given, depth):
    number = re.fullmatch(r"#(\d+)", given[-1])
    if name in ("add", "addw", "sub", "subw") and number and given[1:-1] in ([], ["sp"]):
        return depth + int(number.group(1)) * (1 if name.startswith("sub") else -1)
    raise Refused("the stack pointer is moved by what is known only when it runs")


def table_targets(function, archive):
    """Every place that a table behind a `tbb` or `tbh` of the function may send it to."""
    found = set()
    for n, instruction in enumerate(function.code):
        width = INDEX.get(parts(instruction.text)[0])
        if width is None:
            continue
        base, data = instruction.address + 4, b""
        for following in function.code[n + 1:]:
            if not following.text.startswith("."):
                break
            data += following.raw
        entries = [int.from_bytes(data[k:k + width], "little") for k in range(0, len(data), width)]
        while entries and entries[-1] == 0:  # no entry is 0, which would be the table itself: it fills the last half word
            entries.pop()
        found |= {base + 2 * entry for entry in entries}
    if not found:
        raise Refused("a jump through a table that is not there")
    return tuple(sorted(found))
