"""stacks.py LISTING SIZES: the deepest stack that each function for C can reach on any input, on one processor.

LISTING is what `llvm-objdump -dr --no-show-raw-insn` says of the objects, SIZES what `llvm-readelf --stack-sizes` says
of them: the compiler's own number for each function's frame, which is how far its code must move the stack pointer. The
calls form no circle, so the deepest way down is a sum of frames; who jumps to another function has taken its own frame
away. WebAssembly has no such numbers: there a function's code says what it takes of the stack in memory.

A line has the function, its bytes, on x86-64 with the return address, and NAME:BYTES for each function from outside
that it comes to: how many are taken where that one begins. What that one takes itself is not in them.
"""

import re
import sys

FORMAT = re.compile(r"^.*:\s+file format (\S+)$")
HEAD = re.compile(r"^[0-9a-f]+ <(?!\.L|CODE>)(.+)>:$")
LINE = re.compile(r"^\s*[0-9a-f]+:\s+(\S+)\s*(.*?)\s*$")
RELOCATION = re.compile(r"^\s+[0-9a-f]+:\s+R_(\w+)\s+(?:\.text\.)?(.+?)(?:[+-](?:0x)?[0-9a-f]+)?\s*$")
DATA = re.compile(r"\.|\*ABS\*$|__stack_pointer$")  # what relocations name that is no function, a label in one too
INDIRECT = re.compile(r"callq? \*|blr |blx r|jalr (?!ra\b)|call_indirect ")
# What moves the stack pointer down: where the frame is made, and on x86-64 for a call's arguments.
DOWN = re.compile(r"(?:subq \$|sub(?:\.w)? sp, (?:sp, )?#|addi sp, sp, -|.*\[sp, #-)(\w+)(?:, %rsp\b.*|\]!)?$")
UP = re.compile(r"addq \$(\w+), %rsp\b")
PUSHED = re.compile(r"push(?:\.w)? \{(.*)\}$")
BELOW = re.compile(r"-(0x[0-9a-f]+)\(%rsp|\[sp, #-\w+\]$|-\w+\(sp\)")  # what is used below the stack pointer
X86 = "elf64-x86-64"
X86_ENDS = ("retq", "jmp", "jmpq", "ud2")
ADDRESS = 8  # x86-64's return address, which a call puts on the stack


def functions_in(lines):
    """Each function's instructions as text, each with the relocations that it has; and the objects' format."""
    functions, code, kind = {}, None, None
    for line in lines:
        if of := FORMAT.match(line):
            kind = of[1]
        elif head := HEAD.match(line):
            assert head[1] not in functions, f"two functions {head[1]}"
            code = functions[head[1]] = []
        elif relocation := RELOCATION.match(line):
            code[-1][1].append((relocation[1], relocation[2]))
        elif (found := LINE.match(line)) and code is not None:
            code.append((f"{found[1]} {found[2]}", []))
    return functions, kind


def sizes_in(lines):
    """The compiler's numbers."""
    return {name: int(size) for size, name in re.findall(r"^ +(\d+) +(\S.*)$", "".join(lines), re.MULTILINE)}


def called_by(text, relocations):
    """The function that an instruction goes to, or None; and whether it comes back."""
    assert not INDIRECT.match(text), text
    for kind, name in relocations:
        if kind in ("AARCH64_CALL26", "ARM_THM_CALL"):
            return name, True
        if kind in ("AARCH64_JUMP26", "ARM_THM_JUMP24", "ARM_THM_JUMP19"):
            return name, False
        if kind in ("RISCV_CALL", "RISCV_CALL_PLT"):
            return name, text.startswith("auipc ra,")
        if kind == "WASM_FUNCTION_INDEX_LEB":
            return name, text.startswith("call ")
        if kind in ("X86_64_PLT32", "X86_64_PC32") and text.startswith(("call", "j")):
            return name, text.startswith("call")
        assert DATA.match(name), (text, kind, name)
    return None, True


def moved(text):
    """How far down an instruction moves the stack pointer; up, on x86-64 only."""
    if text.startswith(("pushq ", "popq ")):
        return 8 if text.startswith("push") else -8
    if pushed := PUSHED.match(text):
        return 4 * len(pushed[1].split(","))
    if down := DOWN.match(text):
        return int(down[1], 0)
    if up := UP.match(text):
        return -int(up[1], 0)
    return 0


def x86_frame(code, size):
    """What is used below the entry, and each call with what is taken then: arguments are pushed below the frame, and a
    function that calls none may use what is below its stack pointer. The frame is made once, and taken away where a way
    ends: the code behind that end, which other ways lead to, has it, if it stands behind the place where it is made."""
    depth, lowest, used, calls = 0, 0, size, []
    for text, relocations in code:
        depth += moved(text)
        lowest = max(lowest, depth)
        below = BELOW.search(text)
        used = max(used, depth + int(below[1], 0) if below else depth)
        name, back = called_by(text, relocations)
        if name:
            calls.append((name, max(depth, size) + ADDRESS if back else 0))
        if text.split()[0] in X86_ENDS:
            depth = min(lowest, size)
    assert lowest >= size, f"{lowest} bytes taken, the compiler says {size}"
    return used, calls


def wasm_size(code):
    """What a function takes of the stack in memory."""
    texts = [text.strip() for text, _ in code]
    found = [b for a, b, c in zip(texts, texts[1:], texts[2:]) if a.startswith("global.get ") and c == "i32.sub"]
    assert len(found) <= 1, found
    return int(found[0].removeprefix("i32.const ")) if found else 0


def frame(code, size):
    """The same on the other processors: the frame is whole at each call, since it keeps the address to return to."""
    went = [called_by(text, relocations) for text, relocations in code]
    return size, [(name, size if back else 0) for name, back in went if name]


def frames_of(functions, sizes, kind):
    """Of each function what x86_frame or frame says."""
    frames = {}
    for name, code in functions.items():
        if kind == X86:
            frames[name] = x86_frame(code, sizes[name])
        elif kind == "wasm":
            frames[name] = frame(code, wasm_size(code))
        else:
            down = sum(moved(text) for text, _ in code)
            assert down == sizes[name], f"{name} takes {down} bytes, the compiler says {sizes[name]}"
            assert not any(BELOW.search(text) for text, _ in code), f"{name} uses what is below its frame"
            frames[name] = frame(code, sizes[name])
    return frames


def deepest(name, frames, above=()):
    """The most bytes below a function's entry, and those taken where each function from outside begins."""
    assert name not in above, f"{name} comes to itself"
    if name not in frames:
        return 0, {name: 0}
    most, calls = frames[name]
    outside = {}
    for called, taken in calls:
        more, begun = deepest(called, frames, (*above, name))
        most = max(most, taken + more)
        for other, bytes_ in begun.items():
            outside[other] = max(outside.get(other, 0), taken + bytes_)
    return most, outside


def main(listing, sizes):
    with open(listing, encoding="utf-8") as lines:
        functions, kind = functions_in(lines)
    with open(sizes, encoding="utf-8") as lines:
        frames = frames_of(functions, sizes_in(lines), kind)
    first = ADDRESS if kind == X86 else 0
    for name in sorted(functions):
        if name.startswith("hundurzek_"):
            most, outside = deepest(name, frames)
            print(name, most + first, *(f"{other}:{bytes_ + first}" for other, bytes_ in sorted(outside.items())))


main(*sys.argv[1:])
