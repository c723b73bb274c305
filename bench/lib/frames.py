"""frames.py [FUNCTION]: the deepest stack that each function for C can reach on any input, and by which calls.

Standard input is what `objdump -dr` says of the archives. Of each function every way through its code is followed, and
how far the stack pointer is below its place at the entry; the calls form no circle, so the deepest way down is a sum of
frames. A row has the function, its bytes with the return address, and the chain: what each frame takes up to the call.
With FUNCTION its bytes alone.
"""

import re
import sys

HEAD = re.compile(r"^[0-9a-f]+ <(.+)>:$")
LINE = re.compile(r"^\s*([0-9a-f]+):\t(?:lock |rep\w* |notrack |bnd )*(\S+)\s*(.*?)\s*(?:#.*)?$")
RELOCATION = re.compile(r"^\s+[0-9a-f]+: R_X86_64_(?:PLT32|PC32)\s+(?:\.text\.)?(.+?)-0x4$")
BELOW = re.compile(r"-0x([0-9a-f]+)\(%rsp")
ADDRESS = 8


def functions_in(lines):
    """Each function's instructions: address, mnemonic, operands, and the function that a call or a jump names."""
    functions, code = {}, None
    for line in lines:
        line = line.rstrip("\n")
        if head := HEAD.match(line):
            code = functions[head[1]] = []
        elif relocation := RELOCATION.match(line):
            code[-1][3] = relocation[1]
        elif (found := LINE.match(line)) and code is not None:
            code.append([int(found[1], 16), found[2], found[3], None])
    return functions


def moved(mnemonic, operands):
    """How far down an instruction moves the stack pointer."""
    if mnemonic.startswith("push"):
        return 8
    if mnemonic.startswith("pop"):
        return -8
    if operands.endswith(",%rsp"):
        amount = re.match(r"\$0x([0-9a-f]+),%rsp$", operands)
        assert amount and mnemonic in ("sub", "add"), (mnemonic, operands)
        return int(amount[1], 16) * (1 if mnemonic == "sub" else -1)
    return 0


def depths(code):
    """How far down the stack pointer is before each instruction; where a table of jumps leads to, as at that jump."""
    at = {instruction[0]: k for k, instruction in enumerate(code)}
    depth, todo, tables = {0: 0}, [0], set()
    while todo:
        k = todo.pop()
        _, mnemonic, operands, called = code[k]
        after = depth[k] + moved(mnemonic, operands)
        ways = [] if mnemonic in ("ret", "jmp", "ud2") else [k + 1]
        if mnemonic.startswith("j") and called is None:
            if operands.startswith("*"):
                tables.add(after)
            else:
                ways.append(at[int(operands.split()[0], 16)])
        for way in ways:
            if way < len(code) and way not in depth:
                depth[way] = after
                todo.append(way)
            assert way >= len(code) or depth[way] == after, (code[k], depth[way], after)
        if not todo and tables:
            assert len(tables) == 1, tables
            behind = [j for j in range(1, len(code)) if j not in depth and code[j - 1][1] in ("ret", "jmp", "ud2")]
            if behind:
                depth[behind[0]] = max(tables)
                todo.append(behind[0])
    return depth


def deepest(name, functions, known):
    """The most bytes below a function's entry, and the chain of frames that has them."""
    if name not in functions:
        return 0, []
    if name not in known:
        best = (0, [])
        depth = depths(functions[name])
        for k, down in depth.items():
            _, mnemonic, operands, called = functions[name][k]
            own = down + max(moved(mnemonic, operands), 0)
            if below := BELOW.search(operands):
                own = max(own, down + int(below[1], 16))
            ways = [(own, [(name, own)])]
            if called and mnemonic[0] in "cj":
                more, chain = deepest(called, functions, known)
                taken = down + (ADDRESS if mnemonic == "call" else 0)
                ways.append((taken + more, [(name, taken), *chain]))
            best = max([best, *ways], key=lambda way: way[0])
        known[name] = best
    return known[name]


def main(wanted):
    functions, known = functions_in(sys.stdin), {}
    for name in sorted(functions):
        if name.startswith("hundurzek_") and wanted in (None, name):
            bytes_, chain = deepest(name, functions, known)
            if wanted:
                print(bytes_ + ADDRESS)
            else:
                print(f"| {name} | {bytes_ + ADDRESS} | {', '.join(f'`{f}` {n}' for f, n in chain)} |")


main(sys.argv[1] if len(sys.argv) > 1 else None)
