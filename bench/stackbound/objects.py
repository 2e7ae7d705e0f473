"""The functions of an archive or an object file, as binutils shows them: instructions, the symbols that they name, and the tables that they jump by."""
import bisect
import os
import re
import subprocess
import tempfile
from dataclasses import dataclass, field

HEAD = re.compile(r"^([0-9a-f]+) <(.+)>:$")
LINE = re.compile(r"^\s*([0-9a-f]+):\t([0-9a-f ]+?)\s*(?:\t(.*))?$")
RELOCATION = re.compile(r"^\s+([0-9a-f]+): (R_\S+)\t(.+)$")
SECTION = re.compile(r"^Disassembly of section (.+):$")
MEMBER = re.compile(r"^(\S.*):\s+file format (\S+)$")
WITH_ADDEND = re.compile(r"^(.+?)([+-]0x[0-9a-f]+)?$")


class Refused(Exception):
    """What the object code has and no bound can be given for."""


@dataclass
class Instruction:
    address: int
    text: str
    raw: bytes
    names: list = field(default_factory=list)  # (relocation type, symbol, addend)


@dataclass
class Function:
    name: str
    member: str
    section: str
    start: int
    code: list = field(default_factory=list)

    def __hash__(self):
        return id(self)

    def __eq__(self, other):
        return self is other

    def end(self):
        last = self.code[-1]
        return last.address + len(last.raw)


@dataclass
class Archive:
    kind: str  # elf64-x86-64 or elf32-littlearm
    functions: list
    data: dict  # (member, section) -> [(offset, relocation type, symbol, addend)], of sections that are no code
    exported: dict  # name -> (member, section, offset)

    def index(self):
        self.by_name, self.by_place = {}, {}
        for function in self.functions:
            function.archive = self
            self.by_place.setdefault((function.member, function.section), []).append(function)
            self.by_name[(function.member, function.name)] = function
        for row in self.by_place.values():
            row.sort(key=lambda f: f.start)
        # Two names may stand for one function, of which the disassembly shows one.
        for name, (member, section, start) in self.exported.items():
            function = self.at(member, section, start)
            if function is not None and function.start == start:
                self.by_name[(None, name)] = function
        return self

    def at(self, member, section, offset):
        """The function that an offset of a section lies in."""
        row = self.by_place.get((member, section), [])
        place = bisect.bisect_right([f.start for f in row], offset) - 1
        return row[place] if place >= 0 and offset < row[place].end() else None

    def named(self, member, symbol):
        return self.by_name.get((member, symbol)) or self.by_name.get((None, symbol))

    def meant(self, member, symbol, addend):
        """The function and the offset in it that a symbol with an addend names, or nothing where it is outside or no code."""
        if (member, symbol) in self.by_place:
            function = self.at(member, symbol, addend)
            return (function, addend) if function else None
        function = self.named(member, symbol)
        return (function, function.start + addend) if function else None


class Library:
    """An archive of which single members are read as they are needed, since a C library is long."""

    def __init__(self, path, tools):
        self.path, self.tools, self.read_members = path, tools, {}
        self.members = {}
        member = None
        for line in output([tools + "nm", "--defined-only", path]).splitlines():
            parts = line.split()
            if line.endswith(":") and len(parts) == 1:
                member = line[:-1]
            elif len(parts) == 3 and parts[1] in "TWtw" and parts[1].isupper():
                self.members.setdefault(parts[2], member)

    def function(self, name):
        """The function of a name, or nothing."""
        member = self.members.get(name)
        if member is None:
            return None
        if member not in self.read_members:
            with tempfile.TemporaryDirectory() as folder:
                held = os.path.join(folder, "member.o")
                with open(held, "wb") as out:
                    subprocess.run([self.tools + "ar", "p", self.path, member], stdout=out, check=True)
                self.read_members[member] = read(held, self.tools)
        return self.read_members[member].named(None, name)


def output(words):
    done = subprocess.run(words, capture_output=True, text=True)
    if done.returncode != 0:
        raise SystemExit(f"stack_bound: {' '.join(words)}: {done.stderr.strip() or 'failed'}")
    return done.stdout


def symbol_and_addend(text):
    name, addend = WITH_ADDEND.match(text).groups()
    return name, int(addend or "0", 16)


def read(path, tools):
    """All functions of a file. `tools` is the prefix of the binutils that know its processor."""
    shown = output([tools + "objdump", "-dr", "-z", path])
    functions, kind, member, section, here, last = [], None, None, None, None, None
    for line in shown.splitlines():
        if found := MEMBER.match(line):
            member, kind = found.groups()
        elif found := SECTION.match(line):
            section = found.group(1)
        elif found := HEAD.match(line):
            if found.group(2).startswith("$"):
                continue
            here = Function(found.group(2), member, section, int(found.group(1), 16))
            functions.append(here)
        elif found := RELOCATION.match(line):
            last.names.append((found.group(2), *symbol_and_addend(found.group(3))))
        elif found := LINE.match(line):
            address, raw, text = found.groups()
            raw = raw_bytes(raw, kind)
            if text is None:  # a long instruction goes on in a second line
                last.raw += raw
                continue
            last = Instruction(int(address, 16), text.split("#")[0].strip() if kind == "elf64-x86-64" else text, raw)
            here.code.append(last)
    functions = [f for f in functions if f.code]
    return Archive(kind, functions, data_relocations(path, tools), exported(path, tools)).index()


def raw_bytes(text, kind):
    """Bytes in the order of memory: of a Thumb instruction binutils prints half words."""
    groups = text.split()
    if kind != "elf32-littlearm":
        return bytes.fromhex("".join(groups))
    return b"".join(bytes.fromhex(group)[::-1] for group in groups)


def data_relocations(path, tools):
    """Of every section but code, debugging and unwinding tables: what its words point to."""
    found, member, section = {}, path, None
    for line in output([tools + "objdump", "-r", path]).splitlines():
        if head := MEMBER.match(line):
            member = head.group(1)
        elif head := re.match(r"^RELOCATION RECORDS FOR \[(.+)\]:$", line):
            section = head.group(1)
        elif entry := re.match(r"^([0-9a-f]{8,16}) (R_\S+)\s+(\S+)", line):
            if not re.match(r"^\.(text|debug|eh_frame|ARM\.exidx|stack_sizes|llvm)", section):
                offset, kind, value = entry.groups()
                found.setdefault((member, section), []).append((int(offset, 16), kind, *symbol_and_addend(value)))
    return found


def exported(path, tools):
    """The functions that other files may name: their members, sections and offsets. The lowest bit of a Thumb function's address says that it is one."""
    names, member = {}, path
    for line in output([tools + "objdump", "-t", path]).splitlines():
        if head := MEMBER.match(line):
            member = head.group(1)
        elif entry := re.match(r"^([0-9a-f]+) [gw!u ]......? (\S+)\t[0-9a-f]+ (?:\.\w+ )?(\S+)$", line):
            address, section, name = entry.groups()
            if re.match(r"^[0-9a-f]+ (g|.w)", line) and section.startswith(".text"):
                names[name] = (member, section, int(address, 16) & ~(1 if tools else 0))
    return names
