"""The files that the measurements read, made from fixed seeds, at the sizes that the limits allow."""
import random

MEBIBYTE = 1 << 20
MOST_EFFECTS = 4000


def long_proof():
    """A chain of implications over 1000 variables, derived again and again up to a mebibyte."""
    parts = ["variables 1000", "c 1"]
    parts += [f"c -{k} {k + 1}" for k in range(1, 1000)] + ["c -1000"]
    size = sum(len(part) + 1 for part in parts)
    number = 0
    while size < MEBIBYTE - 100:
        var = number % 1000 + 1
        number += 1
        parts.append(f"{number} {var} : " + (f"c{var}" if var == 1 else f"l{number - 1} c{var}"))
        size += len(parts[-1]) + 1
    last = (number - 1) // 1000 * 1000
    return "\n".join(parts + [f"{number + 1} : l{last} c1001", "end", ""])


def blank_proof():
    return "\n" * MEBIBYTE


def many_seen():
    """4,000 effects on one object, each with as many seen ids as its part of a mebibyte holds."""
    draw = random.Random("seen")
    parts = ["contract forall a. soo(a, cur) => hbo(a, cur)", f"at {MOST_EFFECTS}"]
    room = (MEBIBYTE - 100) // MOST_EFFECTS
    for effect in range(1, MOST_EFFECTS + 1):
        line = f"effect {effect} x write session {effect % 256} vis"
        count = (room - len(line) - 1) // (len(str(effect)) + 1)
        seen = sorted(draw.sample(range(1, effect), min(count, effect - 1)))
        parts.append(" ".join([line, *map(str, seen)]))
    return "\n".join(parts + ["end", ""])


def three_variables():
    """271 effects and a contract of three variables that is true at all 19,902,511 choices."""
    draw = random.Random("three")
    parts = ["contract forall a, b, c. hb(a, b) /\\ hb(b, c) => hb(a, c)", "at 271"]
    for effect in range(1, 272):
        seen = sorted(draw.sample(range(1, effect), min(3, effect - 1)))
        line = f"effect {effect} x write session {draw.randrange(8)} vis"
        parts.append(" ".join([line, *map(str, seen)]))
    return "\n".join(parts + ["end", ""])


MAP_SOURCE = """type counts { state counted: map(int, int) = empty;
  op count(n: int): unit { contract true; answer unit;
    emit key: int = n when true; apply { counted := put(counted, key, get(counted, key, 0) + 1); } }
  op all(): map(int, int) { contract forall a. soo(a, cur) => vis(a, cur); answer counted; } }
"""


SUM_SOURCE = """type sums { state sum: int = 0;
  op add_up(n: int): int { contract forall a. soo(a, cur) => vis(a, cur); answer sum;
    emit p: int = n when n > 0; apply { sum := sum + p; } } }
"""


NOTES_SOURCE = """type notes { op write(title: text, first: text, second: text, third: text, count: int, done: bool): unit {
  contract true; answer unit; } }
transaction two { uses write; contract true; }
"""


def long_schedule():
    """4,000 events over 1,024 objects, in a mebibyte: calls with long texts, and some of each other kind."""
    draw = random.Random("schedule")
    names = [f"note_{'x' * 20}_{k:04}" for k in range(1024)]
    parts = ["quelea schedule 1", "replicas 16"] + [f"object {name} notes" for name in names] + ["events"]
    for event in range(4000):
        caller = f"{draw.randrange(256)} at {draw.randrange(16)}"
        kind = event % 16
        if kind == 0:
            parts.append(f"begin {caller} two {' '.join(draw.sample(names, 16))}")
        elif kind == 1:
            parts.append("partition " + " ".join(str(draw.randrange(16)) for _ in range(16)))
        elif kind == 2:
            parts.append(f"resend {draw.randrange(1, 5000)} from {draw.randrange(16)} to {draw.randrange(16)}")
        elif kind == 3:
            parts.append(f"deliver {draw.randrange(1, 50000)}")
        else:
            texts = " ".join('"' + "".join(draw.choice("abc def ghi") for _ in range(48)) + '"' for _ in range(4))
            parts.append(f"call {caller} {draw.choice(names)} write {texts} {draw.randrange(10**18)} true")
    return "\n".join(parts) + "\n"


def calls_schedule(events=MOST_EFFECTS):
    """Calls at one replica, by 16 sessions by turns, each of which sees all earlier ones."""
    calls = (f"call {k % 16} at 0 x add_up {k % 100}" for k in range(events))
    return "\n".join(["quelea schedule 1", "replicas 1", "object x sums", "events", *calls, ""])


def waiting_schedule(calls, receivers):
    """Calls at one replica that each see all earlier ones, and their deliveries to others, the last one first."""
    parts = ["quelea schedule 1", f"replicas {receivers + 1}", "object x sums", "events"]
    parts += [f"call {k % 16} at 0 x add_up 1" for k in range(calls)]
    parts += [f"deliver {k * receivers + to + 1}" for to in range(receivers) for k in reversed(range(calls))]
    return "\n".join(parts + [""])


def spread_schedule(events=MOST_EFFECTS):
    """Calls by 256 sessions at 16 replicas on 1,024 objects by turns, and the delivery of as many messages."""
    calls = events // 2
    parts = ["quelea schedule 1", "replicas 16", *(f"object o{k} sums" for k in range(1024)), "events"]
    parts += [f"call {k % 256} at {k % 16} o{k % 1024} add_up {k}" for k in range(calls)]
    parts += [f"deliver {15 * k + k % 15 + 1}" for k in range(calls)]
    return "\n".join(parts + [""])


def transactions_schedule(events=MOST_EFFECTS):
    """Transactions of the bank by 16 sessions at two replicas, each of eight calls, on 16 accounts; what is committed is
    delivered at once."""
    accounts = [f"a{k}" for k in range(16)]
    parts = ["quelea schedule 1", "replicas 2", *(f"object {name} account" for name in accounts), "events"]
    for run in range(events // 11):
        caller, decl = f"{run % 16} at {run % 2}", ("audit", "peek", "trail")[run % 3]
        parts.append(f"begin {caller} {decl} {' '.join(accounts)}")
        parts += [f"call {caller} {accounts[(run + k) % 16]} " + ("deposit 1", "getbalance")[k % 2] for k in range(8)]
        parts += [f"commit {caller}", f"deliver {run + 1}"]
    return "\n".join(parts + [""])


def strong_schedule(events=MOST_EFFECTS):
    """Withdrawals from one account, by 64 sessions at 16 replicas by turns."""
    calls = (f"call {k % 64} at {k % 16} a withdraw {k % 7}" for k in range(events))
    return "\n".join(["quelea schedule 1", "replicas 16", "object a account", "events", *calls, ""])


def full_execution(entries):
    """4,000 effects that each see all earlier ones, whose answers are maps of so many entries."""
    pairs = (f"{10**12 + key}: {10**9 + 7919 * key}" for key in range(entries))
    answer = "{" + ", ".join(pairs) + "}" if entries else "{:}"
    parts = ["execution"]
    ids = [str(k) for k in range(1, MOST_EFFECTS + 1)]
    for effect in range(1, MOST_EFFECTS + 1):
        line = f"effect {effect} x all () = {answer} emit - session {effect % 16} txn - stamp {effect} vis"
        parts.append(" ".join([line, *ids[: effect - 1]]))
    return "\n".join(parts + ["end", ""])


def long_certificate(proved, most):
    """A certificate with the refutation of each of its sections repeated, up to this many bytes."""
    sections = []
    for line in proved.splitlines()[1:-1]:
        if line.startswith(("op ", "txn ")):
            sections.append((line, []))
        else:
            sections[-1][1].append(line.split()[1:])
    room = most // len(sections)
    parts = ["quelea certificate 1"]
    for head, lines in sections:
        parts.append(head)
        size = number = 0
        while size < room - 1000:
            first = number
            for fields in lines:
                number += 1
                shifted = (f"l{int(field[1:]) + first}" if field.startswith("l") else field for field in fields)
                parts.append(" ".join([str(number), *shifted]))
                size += len(parts[-1]) + 1
    return "\n".join(parts + ["end", ""])


OPERATION = """  op reserve_{0}(n: int, who: text): bool {{
    contract forall a: reserve_{0}. sameobj(a, cur) => (vis(a, cur) \\/ vis(cur, a)) \\/ a = cur;
    answer left >= n and not (who == "nobody");
    emit p: int = n, w: text = who when left >= n * 2 - 1;
    apply {{
      left := left - p;
      seen := put(seen, w, if has(seen, w) then get(seen, w, 0) + p else p);
    }}
  }}
"""
TYPE = "type stock_{0} {{\n  state left: int = -7;\n  state seen: map(text, int) = empty;\n{1}}}\n"


def declarations(size=MEBIBYTE):
    """Whole types of ten operations each, as many as `size` bytes hold."""
    parts, length, count = [], 0, 0
    while True:
        operations = "".join(OPERATION.format(count * 10 + k) for k in range(10))
        part = TYPE.format(count, operations)
        if length + len(part) > size:
            return "".join(parts)
        parts.append(part)
        length += len(part)
        count += 1


OP_CONTRACTS = [
    "hbo(a, b) /\\ hbo(b, c) /\\ hbo(c, d) /\\ hbo(d, e) /\\ vis(e, cur) => vis(a, cur)",
    "soo(a, b) /\\ vis(b, c) /\\ soo(c, d) /\\ vis(d, e) /\\ soo(e, cur) => vis(a, cur)",
    "sameobj(a, b) /\\ sameobj(b, c) /\\ sameobj(c, d) /\\ sameobj(d, e) /\\ sameobj(e, cur)"
    " => vis(a, cur) \\/ vis(cur, a) \\/ a = cur",
    "[so & sameobj | vis](a, b) /\\ [soo | vis & hb](b, c) /\\ hbo(c, d) /\\ d = e /\\ hbo(e, cur)"
    " => vis(a, cur) \\/ hb(cur, a)",
]
TXN_CONTRACTS = [
    "txn{a}{b, c, d} /\\ sameobj(b, c) /\\ vis(b, a) /\\ d = e => vis(c, a)",
    "txn{a, b}{c, d, e} /\\ so(a, b) /\\ vis(c, a) /\\ sameobj(d, b) => vis(d, b)",
    "txn{a, b}{c, d, e} /\\ vis(c, a) /\\ sameobj(d, b) /\\ sameobj(e, a) => vis(d, b) /\\ vis(e, a)",
]
TERMS = " + ".join(
    f"get(a_table_with_a_rather_long_name, key_{k % 4}_of_this_operation, {k}) * the_left_part_of_it" for k in range(11)
)
STATEMENT = "      the_left_part_of_it := " + TERMS + ";\n"


def largest_program(statements):
    """32 operations in 16 types and 16 transactions with contracts of five variables, and so many statements of a
    kilobyte in each operation."""
    parts = []
    for t in range(16):
        parts.append(f"type type_{t} {{\n  state the_left_part_of_it: int = 0;\n")
        parts.append("  state a_table_with_a_rather_long_name: map(int, int) = empty;\n")
        for o in range(2):
            contract = OP_CONTRACTS[(2 * t + o) % len(OP_CONTRACTS) if t < 8 else o % 2]
            binds = ", ".join(f"key_{k}_of_this_operation: int = n + {k}" for k in range(4))
            parts.append(f"  op op_{t}_{o}(n: int): int {{\n    contract forall a, b, c, d, e. {contract};\n")
            parts.append(f"    answer the_left_part_of_it;\n    emit {binds} when n > 0;\n    apply {{\n")
            parts.append(STATEMENT * statements + "    }\n  }\n")
        parts.append("}\n")
    for x in range(16):
        contract = TXN_CONTRACTS[x % len(TXN_CONTRACTS)]
        parts.append(f"transaction txn_{x} {{\n  uses op_{8 + x % 8}_0, op_{8 + x % 8}_1;\n")
        parts.append(f"  contract forall a, b, c, d, e. {contract};\n}}\n")
    return "".join(parts)
