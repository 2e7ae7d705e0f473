"""What one instruction does: to the stack, and where control goes next. Each processor's module makes these; `walk` follows them."""
from dataclasses import dataclass


@dataclass(frozen=True)
class Place:
    """What is known before an instruction: how many bytes of stack are taken since the function was called, and how many were when the frame
    pointer was set, or nothing where it holds something else."""
    depth: int
    frame: int = None


@dataclass
class Step:
    after: Place
    falls: bool = True  # the next instruction may follow
    jumps: tuple = ()  # addresses in the same function that may follow
    touched: int = 0  # the deepest byte of stack that it touches
    call: tuple = None  # (symbol or address, depth at the call)
    tail: tuple = None  # the same of a jump out of the function, whose own frame is gone by then
