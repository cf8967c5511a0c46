#!/usr/bin/env python3
"""What crates/edges has to print, worked out from document 01 alone.

  edges_expected.py                prints it
  edges_expected.py --mutations    gets one rule of 01 wrong at a time, and says whether the print shows it

Each test has an answer by hand, in the tables below. A second reader, packer and unpacker, written here from 01's text, answers
the same test on a job that is built here. The two have to agree before the line is printed. Nothing here reads the crate."""
import struct
import sys

MARK = b"\xa5"
WHOLE = 2**32 - 1  # what the words of a block add up to
KINDS = {8: 2, 9: 3, 10: 4}  # the kind of block whose records a refusal names
NAMES = {8: "node", 9: "expression", 10: "clause"}
ARITY = {3: 1, 4: 1, 5: 2, 6: 2, 7: 2, 8: 3}


class Model:
    """01's operations. Each rule and each number of 01 has a name where it stands; `change` is a name and what is wrong there."""

    def __init__(self, change=(None, None)):
        self.change = change
        self.met = {}
        self.answers = {}

    # The three ways to get a rule wrong. What is met is kept, so that each of them can be changed in turn.

    def changed(self, name, how):
        self.met[name, how] = None
        return self.change == (name, how)

    def broken(self, rule, wrong):
        """a rule that can be dropped"""
        return not self.changed(rule, "dropped") and wrong

    def number(self, name, value):
        """a number that can be off by one"""
        return value + self.changed(name, "+1") - self.changed(name, "-1")

    def instead(self, other):
        """another way to do it, taken only as a change"""
        return self.changed(other, "instead")

    # What the operations share

    def order(self, verb, numbers):
        """the order of refusals, in which two neighbours can be exchanged"""
        numbers = list(numbers)
        for i, (one, next_one) in enumerate(zip(numbers, numbers[1:])):
            if self.instead(f"{verb}: {next_one} before {one}"):
                numbers[i : i + 2] = next_one, one
                break
        return numbers

    def refusal(self, verb, number, places):
        """the refusal with the lowest place, or None"""
        places = list(places)
        if not places:
            return None
        last = len(places) > 1 and self.instead(f"{verb}: {number} names the last place")
        block, record = places[-1 if last else 0]
        block = self.number(f"{verb}: block that {number} names", block)
        return ("refused", number, block, self.number(f"{verb}: record that {number} names", record))

    def first_refusal(self, verb, order, stages):
        """the refusal of the first stage that has one, or None"""
        refusals = (self.refusal(verb, number, stages[number]()) for number in order)
        return next((refusal for refusal in refusals if refusal), None)

    def limits(self, verb, k, n, e, c):
        return (
            self.broken(f"{verb}: most variables", k > self.number(f"{verb}: most variables", 12))
            or self.broken(f"{verb}: fewest nodes", n < self.number(f"{verb}: fewest nodes", 1))
            or self.broken(f"{verb}: most nodes", n > self.number(f"{verb}: most nodes", 1008))
            or self.broken(f"{verb}: most expressions", e > self.number(f"{verb}: most expressions", 504))
            or self.broken(f"{verb}: most clauses", c > self.number(f"{verb}: most clauses", 504))
        )

    def plan(self, verb, n, e, c):
        """kind, first record and used count of each block after block 0"""
        room = self.number(f"{verb}: records in a block", 63)
        kinds = [(2, n), (3, e), (4, c)]
        if self.instead(f"{verb}: clauses before expressions"):
            kinds = [(2, n), (4, c), (3, e)]
        blocks = []
        for kind, count in kinds:
            blocks += [(kind, i, min(room, count - i)) for i in range(0, count, room)]
            if count == 0 and self.instead(f"{verb}: a block where a count is 0"):
                blocks.append((kind, 0, 0))
        return blocks

    def operand(self, verb, owner, letter, x, limit):
        """an operand is below its limit, and 0 if it is lacking"""
        name = f"{verb}: {owner}'s {letter}"
        if limit is not None:
            return self.broken(name, x >= self.number(name, limit))
        low = self.instead(f"{verb}: a lacking {letter} by its low byte")
        return self.broken(name, (x % 256 if low else x) != 0)

    def node(self, verb, sizes, i, fields):
        code, zero, *operands = fields
        return (
            self.broken(f"{verb}: codes", code > self.number(f"{verb}: codes", 8))
            or self.broken(f"{verb}: node's second byte", zero != 0)
            or any(
                self.operand(verb, f"gate {code}", letter, x, sizes[1] if j < ARITY.get(code, 0) else None)
                for j, (letter, x) in enumerate(zip("pqr", operands))
            )
        )

    def expression(self, verb, sizes, i, fields):
        op, zero, a, b, last = fields
        earlier = i % 63 if self.instead(f"{verb}: earlier within a block") else i
        return (
            self.broken(f"{verb}: ops", op > self.number(f"{verb}: ops", 6))
            or self.broken(f"{verb}: expression's second byte", zero != 0)
            or self.operand(verb, f"op {op}", "a", a, sizes[0] if op == 2 else earlier if op > 2 else None)
            or self.operand(verb, f"op {op}", "b", b, earlier if op > 3 else None)
            or self.operand(verb, "expression", "last number", last, None)
        )

    def clause(self, verb, sizes, i, fields):
        side, value, node, time, guard = fields
        if self.instead(f"{verb}: time by its low byte"):
            time %= 256
        return (
            self.broken(f"{verb}: sides", side > self.number(f"{verb}: sides", 1))
            or self.broken(f"{verb}: values", value > self.number(f"{verb}: values", 1))
            or self.broken(f"{verb}: clause's node", node >= self.number(f"{verb}: clause's node", sizes[1]))
            or self.broken(f"{verb}: last time", time > self.number(f"{verb}: last time", 255))
            or self.broken(f"{verb}: guard", guard >= self.number(f"{verb}: guard", sizes[2]))
        )

    def broken_records(self, verb, number, sizes, first, data):
        """the places in a block of its records that break their rule"""
        rule = {8: self.node, 9: self.expression, 10: self.clause}[number]
        form = ">BBHHH" if self.instead(f"{verb}: numbers of a record high byte first") else "<BBHHH"
        if self.instead(f"{verb}: numbers of a record have a sign"):
            form = "<BBhhh"
        rows = enumerate(struct.iter_unpack(form, data))
        return [j for j, fields in rows if rule(verb, sizes, first + j, fields)]

    def record_stages(self, verb, *job):
        return {number: lambda number=number: self.records(verb, number, *job) for number in KINDS}

    def records(self, verb, number, sizes, blocks, plan):
        """the places of the records that break their rule; blocks of the same bytes are looked at once, for speed"""
        for b, (kind, first, used) in enumerate(plan, 1):
            if kind == KINDS[number] and b < len(blocks):
                data = blocks[b][4 : 4 + 8 * used]
                key = verb, number, sizes, first, data
                if key not in self.answers:
                    self.answers[key] = self.broken_records(verb, number, sizes, first, data)
                yield from ((b, j) for j in self.answers[key])

    # Reading

    def wrong_length(self, job):
        if (
            self.broken("reading: length 0", len(job) == 0)
            or self.broken("reading: whole blocks", len(job) % 512 != 0)
            or self.broken("reading: most blocks", len(job) > 512 * self.number("reading: most blocks", 33))
        ):
            yield 0, 0

    def wrong_checks(self, blocks):
        form = ">128I" if self.instead("reading: words high byte first") else "<128I"
        for b, block in enumerate(blocks):
            total = sum(struct.unpack(form, block))
            if not self.instead("reading: words added without wrapping"):
                total %= 2**32
            which = "first" if b == 0 else "last" if b == len(blocks) - 1 else "middle"
            zero = total == 0 and self.instead("reading: a block of zeros adds up")
            if self.broken(f"reading: check of a {which} block", total != self.number("reading: sum", WHOLE)) and not zero:
                yield b, 0

    def wrong_numbers(self, blocks):
        for b, block in enumerate(blocks):
            due = self.number("reading: number of a block", b)
            low = self.broken("reading: number's low byte", block[0] != due % 256)
            if low or self.broken("reading: number's high byte", block[1] != due // 256):
                yield b, 0

    def wrong_header(self, header):
        kind, used, edition = header[2:5]
        if (
            self.broken("reading: header's kind", kind != self.number("reading: header's kind", 1))
            or self.broken("reading: header's used count", used != self.number("reading: header's used count", 1))
            or self.broken("reading: edition", edition != self.number("reading: edition", 1))
            or self.limits("reading", *self.sizes(header))
        ):
            yield 0, 0

    def sizes(self, header):
        form = ">BHHH" if self.instead("reading: sizes high byte first") else "<BHHH"
        return struct.unpack_from(form, header, 5)

    def wrong_count(self, blocks, plan):
        fewer = self.broken("reading: too few blocks", len(blocks) < 1 + len(plan))
        if fewer or self.broken("reading: too many blocks", len(blocks) > 1 + len(plan)):
            yield 0, 0

    def wrong_blocks(self, blocks, plan):
        for b, (block, (kind, _, used)) in enumerate(zip(blocks[1:], plan), 1):
            which = "full" if used == 63 else "last"
            wrong = self.broken(f"reading: kind of a {which} block of kind {kind}", block[2] != kind)
            if wrong or self.broken(f"reading: used count of a {which} block of kind {kind}", block[3] != used):
                yield b, 0

    def wrong_rest(self, blocks):
        for b, block in enumerate(blocks):
            first = self.number("reading: first unused byte", 4 + 8 * block[3])
            end = self.number("reading: last unused byte", 507) + 1
            if self.broken(f"reading: rest of a block of kind {block[2]}", any(block[first:end])):
                yield b, 0

    def read(self, job):
        """the answer, and the three lists if it is accepted"""
        blocks = [job[at : at + 512] for at in range(0, len(job) - 511, 512)]
        header = blocks[0] if blocks else bytes(512)
        sizes = self.sizes(header)
        plan = self.plan("reading", *sizes[1:])
        stages = {
            1: lambda: self.wrong_length(job),
            2: lambda: self.wrong_checks(blocks),
            3: lambda: self.wrong_numbers(blocks),
            4: lambda: self.wrong_header(header),
            5: lambda: self.wrong_count(blocks, plan),
            6: lambda: self.wrong_blocks(blocks, plan),
            7: lambda: self.wrong_rest(blocks),
            **self.record_stages("reading", sizes, blocks, plan),
        }
        refusal = self.first_refusal("reading", self.order("reading", range(1, 11)), stages)
        if refusal:
            return refusal, None
        lists = {2: b"", 3: b"", 4: b""}
        for block, (kind, _, used) in zip(blocks[1:], plan):
            lists[kind] += block[4 : 4 + 8 * used]
        return ("sizes", *sizes), list(lists.values())

    def unpack(self, job, rooms):
        """the answer, and the three lent lists after it"""
        before = [MARK * room for room in rooms]
        answer, lists = self.read(job)
        if self.instead("unpacking: 13 before 10") and answer[:2] == ("refused", 10):
            lists = [bytes(8 * count) for count in struct.unpack_from("<HHH", job, 6)]
        short = [
            self.broken(f"unpacking: room for {name}s", room < self.number(f"unpacking: room for {name}s", len(data)))
            for name, room, data in zip(NAMES.values(), rooms, lists or ())
        ]
        if any(short):
            answer = self.refusal("unpacking", 13, [(0, 0)])
        if answer[0] == "refused":
            return answer, [bytes(room) for room in rooms] if self.instead("unpacking: a refusal writes") else before
        rest = b"\0" if self.instead("unpacking: the rest of a list is cleared") else MARK
        return answer, [data + rest * (room - len(data)) for data, room in zip(lists, rooms)]

    # Packing

    def wrong_lists(self, lists):
        for name, data in zip(NAMES.values(), lists):
            if self.broken(f"packing: whole {name}s", len(data) % 8 != 0):
                yield 0, 0

    def block(self, b, kind, data):
        number = self.number("packing: number of a block", b)
        kind = self.number("packing: kind of a block", kind)
        used = self.number("packing: used count", len(data) // 8)
        form = ">HBB" if self.instead("packing: block number high byte first") else "<HBB"
        block = (struct.pack(form, number % 65536, kind, used % 256) + data).ljust(508, b"\0")[:508]
        total = self.number("packing: sum", WHOLE) - sum(struct.unpack("<127I", block))
        return block + struct.pack("<I", total % 2**32)

    def stored(self, sizes, lists):
        """the blocks of a job"""
        edition = self.number("packing: edition", 1)
        form = ">BBHHH" if self.instead("packing: sizes high byte first") else "<BBHHH"
        k, *counts = sizes
        out = self.block(0, 1, struct.pack(form, edition, k % 256, *counts))
        for b, (kind, first, used) in enumerate(self.plan("packing", *sizes[1:]), 1):
            out += self.block(b, kind, lists[kind - 2][8 * first : 8 * (first + used)])
        return out

    def taken(self, k):
        """k as it comes in, which nothing may cut"""
        for bits in (8, 16, 32):
            if self.instead(f"packing: k cut to {bits} bits"):
                return k % 2**bits
        return k - 2**64 if k >= 2**63 and self.instead("packing: k has a sign") else k

    def pack_order(self):
        """the records' rules are one step, whose own order can be changed too"""
        for step in self.order("packing", (1, 4, "records", 13)):
            yield from self.order("packing", KINDS) if step == "records" else [step]

    def pack(self, k, lists, room):
        """the answer, and the lent output after it"""
        sizes = (self.taken(k), *(len(data) // 8 for data in lists))
        plan = self.plan("packing", *sizes[1:])
        blocks = [b""] + [bytes(4) + lists[kind - 2][8 * first : 8 * (first + used)] for kind, first, used in plan]
        length = 512 * (1 + len(plan))
        stages = {
            1: lambda: self.wrong_lists(lists),
            4: lambda: [(0, 0)] * self.limits("packing", *sizes),
            **self.record_stages("packing", sizes, blocks, plan),
            13: lambda: [(0, 0)] * self.broken("packing: room", room < self.number("packing: room", length)),
        }
        refusal = self.first_refusal("packing", self.pack_order(), stages)
        if refusal:
            return refusal, (b"\0" if self.instead("packing: a refusal writes") else MARK) * room
        job = self.stored(sizes, lists)
        rest = b"\0" if self.instead("packing: the rest of the output is cleared") else MARK
        return ("written", len(job)), job + rest * (room - len(job))


# The jobs of the tests, which follow 01 whatever the model that is asked gets wrong

BUILDER = Model()


def back(i, count):
    return count - 1 - i if i < count else 0


def samples(k, n, e, c):
    """lists of records that keep their rules wherever the sizes allow"""
    nodes = [(i % 9, 0, back(i, n) * (i % 9 > 2), i // 2 * (i % 9 > 4), i // 3 * (i % 9 > 7)) for i in range(n)]
    expressions = [
        (i % 7, 0, back(i, k) if i % 7 == 2 else i // 2 * (i % 7 > 2), i // 3 * (i % 7 > 3), 0) for i in range(e)
    ]
    clauses = [(i % 2, i // 2 % 2, back(i, n), i % 256, back(i, e)) for i in range(c)]
    return [b"".join(struct.pack("<BBHHH", *f) for f in rows) for rows in (nodes, expressions, clauses)]


def job_of(*sizes, blocks=None):
    """a job; with `blocks`, that many of its blocks, with empty ones after if it has fewer"""
    job = BUILDER.stored(sizes, samples(*sizes))
    if blocks is None:
        return job
    more = range(len(job) // 512, blocks)
    return job[: 512 * blocks] + b"".join(BUILDER.block(b, 0, b"") for b in more)


FULL, SPARE, ONE_NODE, NO_GUARD = (12, 1008, 504, 504), (2, 64, 64, 64), (12, 1, 0, 0), (1, 1, 0, 1)
FULL_JOB, SPARE_JOB = job_of(*FULL), job_of(*SPARE)


def mended(block):
    return block[:508] + struct.pack("<I", (WHOLE - sum(struct.unpack("<127I", block[:508]))) % 2**32)


def with_bytes(job, at, data, mend=True):
    out = job[:at] + data + job[at + len(data) :]
    start = at - at % 512
    return out[:start] + mended(out[start : start + 512]) + out[start + 512 :] if mend else out


def with_byte(job, block, offset, value, mend=True):
    return with_bytes(job, 512 * block + offset, bytes([value]), mend)


def spots(sizes):
    """where the records of the three kinds stand"""
    firsts = [1]
    for count in sizes[1:]:
        firsts.append(firsts[-1] + -(-count // 63))
    return [[512 * (first + i // 63) + 4 + 8 * (i % 63) for i in range(m)] for first, m in zip(firsts, sizes[1:])]


def lists_of(sizes, job):
    """what stands where the records of these sizes stand, whatever else is wrong with the job"""
    return [b"".join(job[at : at + 8] for at in places) for places in spots(sizes)]


# Lines: a name, the answer by hand, and how a model is asked for its own

OK = "accepted"
ALL = ("written", 16896)


def r(number, block=0, record=0):
    return ("refused", number, block, record)


def w(count):
    return ("written", count)


def text(*words):
    return " ".join(str(word) for word in words)


def hand_of(answer, sizes):
    return text("sizes", *sizes) if answer == OK else text(*answer)


def kept(rest):
    return "kept" if rest == MARK * len(rest) else "changed"


def ask_read(job):
    return lambda model: text(*model.read(job)[0])


def packed(answer, out):
    return text(*answer, kept(out[answer[1] if answer[0] == "written" else 0 :]))


def ask_pack(k, lists, room):
    return lambda model: packed(*model.pack(k, lists, room))


def ask_both(sizes, job, room):
    pack = ask_pack(sizes[0], lists_of(sizes, job), room)
    return lambda model: f"read {ask_read(job)(model)} pack {pack(model)}"


def unpacked(model, job, rooms, lists):
    answer, after = model.unpack(job, rooms)
    if answer[0] == "refused":
        return text(*answer, kept(b"".join(after)))
    same = all(data == list_after[: len(data)] for data, list_after in zip(lists, after))
    rest = b"".join(list_after[len(data) :] for data, list_after in zip(lists, after))
    return text(*answer, "same" if same else "differs", kept(rest))


def ask_repack(sizes, job, room):
    lists = lists_of(sizes, job)

    def ask(model):
        answer, out = model.pack(sizes[0], lists, room)
        line = packed(answer, out)
        if answer[0] == "refused":
            return line
        written = out[: answer[1]]
        again = unpacked(model, written, (8064, 4032, 4032), lists)
        return f"{line} {'same' if written == job else 'differs'} unpack {again}"

    return ask


# Tests, in the order of the print

LENGTHS = (
    (0, r(1)), (1, r(1)), (511, r(1)), (512, r(5)), (513, r(1)), (1024, r(5)), (16384, r(5)), (16895, r(1)), (16896, OK), (16897, r(1)),
    (17408, r(1)), (17920, r(1)), (65536, r(1)),
)
# k, n, e, c, blocks given
JOBS = (
    (0, 1, 0, 0, 2, OK), (12, 1, 0, 0, 2, OK), (13, 1, 0, 0, 2, r(4)), (255, 1, 0, 0, 2, r(4)), (1, 0, 0, 0, 1, r(4)), (1, 0, 0, 0, 2, r(4)),
    (1, 1, 0, 0, 1, r(5)), (1, 1, 0, 0, 3, r(5)), (1, 63, 0, 0, 1, r(5)), (1, 63, 0, 0, 2, OK), (1, 63, 0, 0, 3, r(5)),
    (1, 64, 0, 0, 2, r(5)), (1, 64, 0, 0, 3, OK), (1, 64, 0, 0, 4, r(5)), (1, 257, 0, 0, 6, OK), (1, 1008, 0, 0, 17, OK),
    (1, 1009, 0, 0, 18, r(4)), (1, 65535, 0, 0, 33, r(4)),
    (1, 1, 1, 0, 3, OK), (1, 1, 63, 0, 3, OK), (1, 1, 64, 0, 3, r(5)), (1, 1, 64, 0, 4, OK), (1, 1, 504, 0, 10, OK), (1, 1, 505, 0, 11, r(4)),
    (1, 1, 0, 1, 3, r(10, 2, 0)), (1, 1, 1, 1, 3, r(5)), (1, 1, 1, 1, 4, OK), (1, 1, 1, 63, 4, OK), (1, 1, 1, 64, 4, r(5)), (1, 1, 1, 64, 5, OK),
    (1, 1, 1, 504, 11, OK), (1, 1, 1, 505, 12, r(4)), (2, 64, 64, 64, 6, r(5)), (2, 64, 64, 64, 7, OK), (2, 64, 64, 64, 8, r(5)),
    (12, 1008, 504, 504, 32, r(5)), (12, 1008, 504, 504, 33, OK), (12, 1008, 504, 504, 34, r(1)),
)
FLIPPED = ((0, 0, r(2, 0)), (0, 511, r(2, 0)), (16, 255, r(2, 16)), (32, 0, r(2, 32)), (32, 511, r(2, 32)))
EXCHANGED = ((1, 1, 3, OK), (1, 0, 1, r(3, 1)), (1, 7, 8, r(8, 1, 3)), (32, 1, 127, r(10, 32, 0)))
# block, offset, byte
FULL_BYTES = (
    (0, 0, 1, r(3, 0)), (0, 1, 1, r(3, 0)), (1, 0, 0, r(3, 1)), (32, 0, 31, r(3, 32)), (32, 0, 33, r(3, 32)), (32, 1, 1, r(3, 32)),
    (0, 2, 0, r(4)), (0, 2, 2, r(4)), (0, 3, 0, r(4)), (0, 3, 2, r(4)), (0, 4, 0, r(4)), (0, 4, 2, r(4)),
    (0, 5, 13, r(4)), (0, 6, 241, r(4)), (0, 8, 249, r(4)), (0, 10, 249, r(4)),
    (1, 2, 1, r(6, 1)), (1, 2, 3, r(6, 1)), (1, 3, 0, r(6, 1)), (1, 3, 62, r(6, 1)), (1, 3, 64, r(6, 1)), (16, 2, 3, r(6, 16)),
    (16, 3, 62, r(6, 16)), (17, 2, 2, r(6, 17)), (17, 2, 4, r(6, 17)), (24, 2, 4, r(6, 24)), (25, 2, 3, r(6, 25)), (32, 2, 0, r(6, 32)),
    (32, 2, 3, r(6, 32)), (32, 2, 5, r(6, 32)), (32, 3, 0, r(6, 32)), (32, 3, 62, r(6, 32)), (32, 3, 64, r(6, 32)), (32, 3, 255, r(6, 32)),
    (0, 12, 1, r(7, 0)), (0, 507, 255, r(7, 0)),
)
SPARE_BYTES = (
    (1, 3, 62, r(6, 1)), (2, 3, 0, r(6, 2)), (2, 3, 2, r(6, 2)), (3, 3, 64, r(6, 3)), (4, 3, 63, r(6, 4)), (6, 3, 0, r(6, 6)), (6, 3, 2, r(6, 6)),
    (2, 2, 3, r(6, 2)), (4, 2, 2, r(6, 4)), (6, 2, 3, r(6, 6)),
    (0, 11, 1, r(5)), (0, 12, 1, r(7, 0)), (0, 507, 1, r(7, 0)),
    (1, 507, 1, r(8, 1, 62)), (2, 11, 1, r(8, 2, 0)), (2, 12, 1, r(7, 2)), (2, 507, 1, r(7, 2)),
    (3, 507, 1, r(9, 3, 62)), (4, 11, 1, r(9, 4, 0)), (4, 12, 128, r(7, 4)), (4, 507, 1, r(7, 4)),
    (5, 507, 1, r(10, 5, 62)), (6, 11, 1, r(10, 6, 0)), (6, 12, 1, r(7, 6)), (6, 507, 1, r(7, 6)),
)
# block, offset, block, offset, byte; read, and packed if that differs
FULL_TWICE = (
    (1, 0, 32, 0, 99, r(3, 1), ALL), (1, 2, 32, 2, 1, r(6, 1), ALL), (16, 3, 17, 3, 1, r(6, 16), ALL),
    (1, 4, 1, 12, 9, r(8, 1, 0)), (1, 500, 2, 4, 9, r(8, 1, 62)), (15, 500, 16, 500, 9, r(8, 15, 62)), (16, 4, 16, 500, 9, r(8, 16, 0)),
    (17, 4, 17, 12, 7, r(9, 17, 0)), (17, 500, 18, 4, 7, r(9, 17, 62)), (23, 500, 24, 500, 7, r(9, 23, 62)), (24, 4, 24, 500, 7, r(9, 24, 0)),
    (25, 4, 25, 12, 2, r(10, 25, 0)), (25, 500, 26, 4, 2, r(10, 25, 62)), (31, 500, 32, 4, 2, r(10, 31, 62)),
)
SPARE_TWICE = tuple(
    (*row, w(3584))
    for row in (
        (5, 0, 6, 0, 99, r(3, 5)), (2, 3, 6, 3, 0, r(6, 2)), (0, 507, 6, 12, 1, r(7, 0)), (2, 507, 4, 12, 1, r(7, 2)), (4, 12, 4, 507, 1, r(7, 4)),
    )
)
# number; block, offset and byte that make the job be refused with it; read, and packed if that differs
WRONGS = (
    (10, 5, 4, 2, r(10, 5, 0)), (9, 3, 500, 7, r(9, 3, 62)), (8, 2, 4, 9, r(8, 2, 0)), (7, 6, 507, 1, r(7, 6), r(8, 2, 0)),
    (6, 6, 3, 2, r(6, 6), r(8, 2, 0)), (5, 0, 6, 63, r(5), r(8, 2, 0)), (4, 0, 4, 2, r(4), r(8, 2, 0)), (3, 5, 0, 9, r(3, 5), r(8, 2, 0)),
    (2, 6, 511, 0, r(2, 6), r(8, 2, 0)),
)
# the five fields; then whether they are right in the first record, and in the last
YES, NO, LATER = (True, True), (False, False), (False, True)
NODES = (
    (0, 0, 0, 0, 0, YES), (1, 0, 0, 0, 0, YES), (2, 0, 0, 0, 0, YES), (3, 0, 1007, 0, 0, YES), (4, 0, 1007, 0, 0, YES), (5, 0, 1007, 1007, 0, YES),
    (6, 0, 1007, 1007, 0, YES), (7, 0, 1007, 1007, 0, YES), (8, 0, 1007, 1007, 1007, YES),
    (9, 0, 0, 0, 0, NO), (255, 0, 0, 0, 0, NO), (0, 1, 0, 0, 0, NO), (8, 255, 0, 0, 0, NO),
    (3, 0, 1008, 0, 0, NO), (4, 0, 1008, 0, 0, NO), (5, 0, 1008, 0, 0, NO), (6, 0, 1008, 0, 0, NO), (7, 0, 1008, 0, 0, NO), (8, 0, 1008, 0, 0, NO),
    (5, 0, 0, 1008, 0, NO), (6, 0, 0, 1008, 0, NO), (7, 0, 0, 1008, 0, NO), (8, 0, 0, 1008, 0, NO), (8, 0, 0, 0, 1008, NO), (8, 0, 0, 0, 65535, NO),
    (0, 0, 1, 0, 0, NO), (0, 0, 0, 1, 0, NO), (0, 0, 0, 0, 1, NO), (1, 0, 1, 0, 0, NO), (1, 0, 0, 1, 0, NO), (1, 0, 0, 0, 1, NO),
    (2, 0, 256, 0, 0, NO), (2, 0, 0, 256, 0, NO), (2, 0, 0, 0, 256, NO), (3, 0, 0, 1, 0, NO), (3, 0, 0, 0, 1, NO), (4, 0, 0, 1, 0, NO),
    (4, 0, 0, 0, 1, NO), (5, 0, 0, 0, 1, NO), (6, 0, 0, 0, 256, NO), (7, 0, 0, 0, 1007, NO),
)
EXPRESSIONS = (
    (0, 0, 0, 0, 0, YES), (1, 0, 0, 0, 0, YES), (2, 0, 0, 0, 0, YES), (2, 0, 11, 0, 0, YES), (2, 0, 12, 0, 0, NO), (2, 0, 256, 0, 0, NO),
    (3, 0, 0, 0, 0, LATER), (3, 0, 502, 0, 0, LATER), (3, 0, 503, 0, 0, NO), (4, 0, 502, 502, 0, LATER), (4, 0, 503, 0, 0, NO), (4, 0, 0, 503, 0, NO),
    (5, 0, 502, 502, 0, LATER), (5, 0, 503, 0, 0, NO), (5, 0, 0, 503, 0, NO), (6, 0, 502, 502, 0, LATER), (6, 0, 503, 0, 0, NO), (6, 0, 0, 503, 0, NO),
    (7, 0, 0, 0, 0, NO), (255, 0, 0, 0, 0, NO), (1, 1, 0, 0, 0, NO), (0, 0, 1, 0, 0, NO), (1, 0, 256, 0, 0, NO), (0, 0, 0, 1, 0, NO),
    (1, 0, 0, 1, 0, NO), (2, 0, 0, 1, 0, NO), (3, 0, 0, 256, 0, NO), (1, 0, 0, 0, 1, NO), (6, 0, 0, 0, 256, NO),
)
CLAUSES = (
    (0, 0, 0, 0, 0, YES), (1, 1, 1007, 255, 503, YES), (2, 0, 0, 0, 0, NO), (255, 0, 0, 0, 0, NO), (0, 2, 0, 0, 0, NO), (1, 255, 0, 0, 0, NO),
    (0, 0, 1008, 0, 0, NO), (0, 0, 65535, 0, 0, NO), (0, 0, 0, 256, 0, NO), (0, 0, 0, 511, 0, NO), (0, 0, 0, 65535, 0, NO), (0, 0, 0, 0, 504, NO),
    (0, 0, 0, 0, 65535, NO), (1, 1, 1008, 256, 504, NO),
)
# k, bytes of three lists, bytes of the output
PACKS = (
    (0, 8, 0, 0, 1024, w(1024)), (12, 8, 0, 0, 1024, w(1024)), (13, 8, 0, 0, 1024, r(4)), (255, 8, 0, 0, 1024, r(4)), (256, 8, 0, 0, 1024, r(4)),
    (65535, 8, 0, 0, 1024, r(4)), (1, 1, 0, 0, 1024, r(1)), (1, 7, 0, 0, 1024, r(1)), (1, 9, 0, 0, 1024, r(1)), (1, 8, 7, 0, 1536, r(1)),
    (1, 8, 9, 0, 1536, r(1)), (1, 8, 8, 7, 2048, r(1)), (1, 8, 8, 9, 2048, r(1)),
    (1, 0, 0, 0, 1024, r(4)), (1, 504, 0, 0, 1024, w(1024)), (1, 512, 0, 0, 1536, w(1536)), (1, 512, 0, 0, 1535, r(13)),
    (1, 8064, 0, 0, 8704, w(8704)), (1, 8072, 0, 0, 17920, r(4)), (1, 8, 8, 0, 1536, w(1536)), (1, 8, 504, 0, 1536, w(1536)),
    (1, 8, 512, 0, 2048, w(2048)), (1, 8, 4032, 0, 5120, w(5120)), (1, 8, 4040, 0, 17920, r(4)), (1, 8, 8, 8, 2048, w(2048)),
    (1, 8, 8, 504, 2048, w(2048)), (1, 8, 8, 512, 2560, w(2560)), (1, 8, 8, 4032, 5632, w(5632)), (1, 8, 8, 4040, 17920, r(4)),
    (1, 8, 0, 8, 17920, r(10, 2, 0)),
    (12, 8064, 4032, 4032, 16896, ALL), (12, 8064, 4032, 4032, 16895, r(13)), (12, 8064, 4032, 4032, 17920, ALL),
    (1, 8, 0, 0, 1023, r(13)), (1, 8, 0, 0, 1025, w(1024)), (1, 8, 0, 0, 512, r(13)), (1, 8, 0, 0, 0, r(13)),
    (13, 0, 0, 7, 0, r(1)), (13, 8, 0, 8, 0, r(4)), (1, 8, 0, 8, 0, r(10, 2, 0)), (1, 0, 8, 8, 0, r(4)),
)
REPACKS = (
    (FULL, 16895, r(13)), (FULL, 16896, ALL), (FULL, 16897, ALL), (SPARE, 3583, r(13)), (SPARE, 3584, w(3584)), (SPARE, 3585, w(3584)),
    (ONE_NODE, 1024, w(1024)),
)
# the flag job as 01 prints it: the used bytes of each block, and its check
FLAG = (
    ("00 00 01 01  01 01 02 00 02 00 04 00", "FC FE F8 FE"),
    ("01 00 02 02" + " 00" * 8 + " 06 00 00 00 01 00 00 00", "F7 FF FD FD"),
    ("02 00 03 02  02 00 00 00 00 00 00 00  03 00 00 00 00 00 00 00", "F8 FF FC FD"),
    (
        "03 00 04 04  00 01 00 00 00 00 00 00  00 00 00 00 00 00 01 00  01 01 01 00 01 00 00 00  01 00 01 00 01 00 01 00",
        "F8 FD F7 FB",
    ),
)
ROOMS = (
    (8064, 4032, 4032), (8063, 4032, 4032), (8064, 4031, 4032), (8064, 4032, 4031), (8065, 4033, 4033), (8080, 4048, 4048), (0, 4032, 4032),
    (8, 0, 0), (7, 0, 0), (0, 0, 0),
)
UNPACKS = (
    (FULL, (OK, r(13), r(13), r(13), OK, OK, r(13), r(13), r(13), r(13))),
    (ONE_NODE, (OK, OK, OK, OK, OK, OK, r(13), OK, r(13), r(13))),
    (NO_GUARD, (r(10, 2, 0),) * 10),
)


def read_lines(name, rows, job_for, sizes_for):
    for *row, hand in rows:
        yield text(name, *row), hand_of(hand, sizes_for(row)), ask_read(job_for(row))


def damage_lines():
    yield "all-zero-block 0 1", text(*r(2, 0)), ask_read(bytes(512))
    for kept_blocks in (31, 32):
        job = FULL_JOB[: 512 * kept_blocks] + bytes(512 * (33 - kept_blocks))
        yield f"all-zero-block {kept_blocks} 33", text(*r(2, kept_blocks)), ask_read(job)


def flip(row):
    block, offset = row
    return with_byte(FULL_JOB, block, offset, FULL_JOB[512 * block + offset] ^ 1, mend=False)


def exchange(row):
    block, a, b = row
    at, to = (512 * block + 4 * word for word in (a, b))
    job = with_bytes(FULL_JOB, at, FULL_JOB[to : to + 4], mend=False)
    return with_bytes(job, to, FULL_JOB[at : at + 4], mend=False)


def twice_lines(name, sizes, job, rows):
    for b1, o1, b2, o2, value, *hands in rows:
        edited = with_byte(with_byte(job, b2, o2, value), b1, o1, value)
        hand = f"read {text(*hands[0])} pack {text(*hands[-1])} kept"
        yield text(name, b1, o1, b2, o2, value), hand, ask_both(sizes, edited, 16896)


def wrong_lines():
    job = SPARE_JOB
    for number, block, offset, value, *hands in WRONGS:
        job = with_byte(job, block, offset, value, mend=number != 2)
        hand = f"read {text(*hands[0])} pack {text(*hands[-1])} kept"
        yield f"wrong-from {number}", hand, ask_both(SPARE, job, 0)
    yield "wrong-from 1", text(*r(1)), ask_read(job[:3583])


def record_lines(number, rows):
    places = spots(FULL)[number - 8]
    for *fields, rights in rows:
        for i, right in zip((0, len(places) - 1), rights):
            job = with_bytes(FULL_JOB, places[i], struct.pack("<BBHHH", *fields))
            bad = r(number, places[i] // 512, i % 63)
            hand = f"read {hand_of(OK if right else bad, FULL)} pack {text(*(ALL if right else bad))} kept"
            yield text(NAMES[number], i, *fields), hand, ask_both(FULL, job, 16896)


def pack_lines():
    for k, n, e, c, room, hand in PACKS:
        yield text("pack", k, n, e, c, room), text(*hand, "kept"), ask_pack(k, [bytes(n), bytes(e), bytes(c)], room)
    for k in (2**16 + 12, 2**32 + 12, 2**64 - 1):
        yield f"pack k {k}", text(*r(4), "kept"), ask_pack(k, [bytes(8), b"", b""], 1024)


def repack_line(sizes, job, room, hand):
    again = f" same unpack {hand_of(OK, sizes)} same kept" if hand[0] == "written" else ""
    return text("repack", *sizes, room), text(*hand, "kept") + again, ask_repack(sizes, job, room)


def repack_lines():
    for sizes, room, hand in REPACKS:
        yield repack_line(sizes, job_of(*sizes), room, hand)
    flag = b"".join(bytes.fromhex(used).ljust(508, b"\0") + bytes.fromhex(check) for used, check in FLAG)
    yield "flag", hand_of(OK, (1, 2, 2, 4)), ask_read(flag)
    yield repack_line((1, 2, 2, 4), flag, 2048, w(2048))


def unpack_lines():
    for sizes, hands in UNPACKS:
        job, lists = job_of(*sizes), samples(*sizes)
        for rooms, hand in zip(ROOMS, hands, strict=True):
            ask = lambda model, job=job, rooms=rooms, lists=lists: unpacked(model, job, rooms, lists)
            yield text("unpack", *sizes, *rooms), hand_of(hand, sizes) + (" same kept" if hand == OK else " kept"), ask


def groups():
    """each group's legend and its lines"""
    whole = lambda row: FULL
    after = FULL_JOB + bytes(65536)
    yield "length: bytes of the largest job", read_lines("length", LENGTHS, lambda row: after[: row[0]], whole)
    yield "job: k n e c, blocks given", read_lines("job", JOBS, lambda row: job_of(*row[:4], blocks=row[4]), lambda row: row[:4])
    yield "all-zero-block: from, given", damage_lines()
    yield "flipped: block, offset", read_lines("flipped", FLIPPED, flip, whole)
    yield "exchanged: block, two words", read_lines("exchanged", EXCHANGED, exchange, whole)
    put = "block, offset, byte put there"
    yield f"full: {put}", read_lines("full", FULL_BYTES, lambda row: with_byte(FULL_JOB, *row), whole)
    yield f"spare: {put}", read_lines("spare", SPARE_BYTES, lambda row: with_byte(SPARE_JOB, *row), whole)
    full, spare = ("twice full", FULL, FULL_JOB, FULL_TWICE), ("twice spare", SPARE, SPARE_JOB, SPARE_TWICE)
    yield f"twice: block, offset, {put}", [*twice_lines(*full), *twice_lines(*spare)]
    yield "wrong-from: a number; the job is wrong by it and by all higher ones", wrong_lines()
    yield "node: record, code, 0, p, q, r", record_lines(8, NODES)
    yield "expression: record, op, 0, a, b, 0", record_lines(9, EXPRESSIONS)
    yield "clause: record, side, value, node, time, guard", record_lines(10, CLAUSES)
    yield "pack: k, bytes of three lists of zeros, bytes of the output", pack_lines()
    yield "repack: k n e c, bytes of the output", repack_lines()
    yield "unpack: k n e c, bytes of the three lists", unpack_lines()


def print_expected():
    model = Model()
    for legend, lines in groups():
        print(f"# {legend}")
        for name, hand, ask in lines:
            answer = ask(model)
            assert answer == hand, f"{name}: by hand {hand}, by the second reader {answer}"
            print(f"{name}: {answer}")


def sees(tests, wrong):
    """whether a test shows that a model is wrong; that test goes to the front, for the next change is often like this one"""
    for i, (hand, ask) in enumerate(tests):
        if ask(wrong) != hand:
            tests.insert(0, tests.pop(i))
            return True
    return False


def try_mutations():
    tests = [(hand, ask) for _, lines in groups() for _, hand, ask in lines]
    right = Model()
    assert all(ask(right) == hand for hand, ask in tests)
    seen = 0
    for name, how in right.met:
        found = sees(tests, Model((name, how)))
        seen += found
        print(f"{name}, {how}: {'seen' if found else 'NOT SEEN'}")
    print(f"{seen} of {len(right.met)} changes seen")
    return 0 if seen == len(right.met) else 1


if __name__ == "__main__":
    if sys.argv[1:] == ["--mutations"]:
        sys.exit(try_mutations())
    if sys.argv[1:]:
        sys.exit(__doc__)
    print_expected()
