"""stacks: how much stack each exported function of an archive can take, read from its compiled code (objdump).

A function takes its return address, what it pushes and subtracts, and up to 128 bytes below the stack pointer where it calls nothing. To
that comes the most that any function takes which it calls. Code behind a `ret` is reached from the body, so the body's depth is taken
for it; this can only be too much. Refused: a stack pointer moved by a register, a call through a pointer, a function that calls itself,
but for the digit writer, which does so once for each of at most 20 digits. C's memcpy, memset and the like are taken for 0.
"""
import re
import subprocess

DIGITS = 20
RECURSIVE = {"decimal::put_digits": DIGITS, "decimal::decimal_len": DIGITS}
C_LIBRARY = {"memcpy", "memset", "memmove", "memcmp", "bcmp"}


def functions(archive, objdump):
    """Each function's instructions: the word, its operands, and the symbol that the linker puts there."""
    text = subprocess.run([objdump, "-dr", "--no-show-raw-insn", archive], capture_output=True, text=True, check=True).stdout
    found, body = {}, None
    for line in text.splitlines():
        if start := re.match(r"[0-9a-f]+ <(.*)>:$", line):
            body = found.setdefault(start[1], [])
        elif moved := re.search(r"\tR_X86_64_\S+\s+(\S+?)(?:[-+]0x[0-9a-f]+)?$", line.replace(": R_", ":\tR_")):
            body[-1][2] = moved[1].removeprefix(".text.")
        elif insn := re.match(r"\s+[0-9a-f]+:\t(\S+)\s*(.*)", line):
            body.append([insn[1], insn[2].split("#")[0].strip(), None])
    return found


def own(name, body):
    """The most that the function itself takes, and how deep it is at each call."""
    depth = most = base = 8
    calls = []
    for word, operands, symbol in body:
        if word == "push":
            depth += 8
        elif word == "pop":
            depth -= 8
        elif step := re.fullmatch(r"\$(-?0x[0-9a-f]+),%rsp", operands):
            if word not in ("sub", "add"):
                raise ValueError(f"{name}: {word} {operands}")
            depth += int(step[1], 16) * (1 if word == "sub" else -1)
        elif operands.endswith(",%rsp") and word not in ("cmp", "test"):
            raise ValueError(f"{name}: {word} {operands}")
        elif word == "ret":
            depth = base
        inside = re.search(r"<(.*?)(\+0x[0-9a-f]+)?>$", operands)
        target = symbol or (inside[1] if inside and not inside[2] else None)
        if word == "call" or (word.startswith("j") and target and target != name and symbol):
            if not target:
                raise ValueError(f"{name}: {word} {operands}")
            calls.append((depth, target))
        below = max((int(b, 16) for b in re.findall(r"-(0x[0-9a-f]+)\(%rsp", operands)), default=0)
        most = max(most, depth + below)
        base = max(base, depth)
    return most, calls


def of(archive, objdump):
    """The bytes of stack that each function takes, with all that it calls."""
    code = {name: own(name, body) for name, body in functions(archive, objdump).items()}
    known = {}

    def need(name, above):
        if name in C_LIBRARY:
            return 0
        if name in above:
            raise ValueError(f"{name} calls itself")
        if name not in known:
            most, calls = code[name]
            times = RECURSIVE.get(name, 1) if any(target == name for _, target in calls) else 1
            deepest = [depth for depth, target in calls if target == name]
            others = [depth + need(target, above | {name}) for depth, target in calls if target != name or times == 1]
            known[name] = max([most, *others]) + (times - 1) * max(deepest, default=0)
        return known[name]

    return {name: need(name, frozenset()) for name in code}
