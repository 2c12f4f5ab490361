"""The loop handler and the runner as the requirements have them, in plain Python, for tests to compare with."""
M64 = 2**64 - 1


def sext(value, bits):
    value &= 2**bits - 1
    return (value - 2**bits if value >> bits - 1 else value) & M64


def signed(value):
    return value - 2**64 if value >> 63 else value


def word_result(value):
    return sext(value, 32)


def low_word(value):
    return value & 2**32 - 1


def signed_word(value):
    return signed(sext(value, 32))


def quotient(a, b):
    """Of two integers, rounded towards zero; -1 by zero. The most negative by -1 doesn't fit, and wraps to itself."""
    if b == 0:
        return -1
    size = abs(a) // abs(b)
    return size if (a < 0) == (b < 0) else -size


def remainder(a, b):
    """What the quotient leaves, with the dividend's sign; by zero the dividend."""
    return a - b * quotient(a, b)


OPERATIONS = {
    "add": lambda a, b: a + b, "sub": lambda a, b: a - b, "sll": lambda a, b: a << (b & 63),
    "slt": lambda a, b: int(signed(a) < signed(b)), "sltu": lambda a, b: int(a < b), "xor": lambda a, b: a ^ b,
    "srl": lambda a, b: a >> (b & 63), "sra": lambda a, b: signed(a) >> (b & 63), "or": lambda a, b: a | b,
    "and": lambda a, b: a & b, "addw": lambda a, b: word_result(a + b), "subw": lambda a, b: word_result(a - b),
    "sllw": lambda a, b: word_result(a << (b & 31)), "srlw": lambda a, b: word_result(low_word(a) >> (b & 31)),
    "sraw": lambda a, b: word_result(signed_word(a) >> (b & 31)),
    "mul": lambda a, b: a * b, "mulh": lambda a, b: signed(a) * signed(b) >> 64,
    "mulhsu": lambda a, b: signed(a) * b >> 64, "mulhu": lambda a, b: a * b >> 64,
    "div": lambda a, b: quotient(signed(a), signed(b)), "divu": quotient,
    "rem": lambda a, b: remainder(signed(a), signed(b)), "remu": remainder,
    "mulw": lambda a, b: word_result(a * b),
    "divw": lambda a, b: word_result(quotient(signed_word(a), signed_word(b))),
    "divuw": lambda a, b: word_result(quotient(low_word(a), low_word(b))),
    "remw": lambda a, b: word_result(remainder(signed_word(a), signed_word(b))),
    "remuw": lambda a, b: word_result(remainder(low_word(a), low_word(b))),
}
BY_FUNCT3 = ["add", "sll", "slt", "sltu", "xor", "srl", "or", "and"]
RV64M_BY_FUNCT3 = ["mul", "mulh", "mulhsu", "mulhu", "div", "divu", "rem", "remu"]


def operation_of(word):
    """Name, and the immediate or None; None for a word that is no operation."""
    opcode, funct3, funct7 = word & 127, word >> 12 & 7, word >> 25
    name, wide = BY_FUNCT3[funct3], opcode in (0x1B, 0x3B)
    other = {"add": "sub", "srl": "sra"}.get(name)
    immediate = None
    if opcode in (0x33, 0x3B):
        name = {0: name, 32: other, 1: RV64M_BY_FUNCT3[funct3]}.get(funct7)
    elif name in ("sll", "srl"):
        top, immediate = (funct7, word >> 20 & 31) if wide else (word >> 26, word >> 20 & 63)
        name = {0: name, 32 if wide else 16: other}.get(top)
    else:
        immediate = sext(word >> 20, 12)
    if name is None:
        return None
    name += "w" if wide else ""
    return (name, immediate) if name in OPERATIONS else None


class Machine:
    def __init__(self, size=4096):
        self.x = [0] * 128
        self.pc = 0
        self.mvl = self.vl = 1
        self.cfg = 24
        self.source = self.destination = 0
        self.registers, self.predicates = [0] * 16, [0] * 16
        self.memory = bytearray(size)

    # settings; each gives its answer
    def set_entry(self, table, index, value):
        if index > 15:
            return 8
        if table is self.predicates and value & 1:
            return 7
        table[index] = value
        return 0

    def set_register(self, index, value):
        if index > 127:
            return 8
        if index:
            self.x[index] = value
        return 0

    def set_state(self, word):
        mvl = (word & 63) + 1
        vl = min((word >> 6 & 63) + 1, mvl)
        source, destination = word >> 12 & 63, word >> 18 & 63
        if word >> 29 or source >= vl or destination >= vl:
            return 7
        self.mvl, self.vl, self.source, self.destination, self.cfg = mvl, vl, source, destination, word >> 24
        return 0

    def set_lengths(self, mvl, vl):
        if not (1 <= mvl <= 64 and vl):
            return 7
        self.mvl, self.vl, self.source, self.destination = mvl, min(vl, mvl), 0, 0
        return 0

    def set_vl(self, n):
        return self.set_lengths(self.mvl, n)

    def set_vl_immediate(self, n):
        return 7 if n > 31 else self.set_lengths(self.mvl, n + 1)

    def set_mvl(self, n):
        return self.set_lengths(n, self.vl)

    def set_cfg(self, n):
        if n > 31:
            return 7
        self.cfg = n
        return 0

    def set_pc(self, n):
        self.pc = n
        return 0

    def state_word(self):
        return self.mvl - 1 | self.vl - 1 << 6 | self.source << 12 | self.destination << 18 | self.cfg << 24

    def in_shape(self):
        """Whether a call that keeps the ranges could have left it so."""
        return (1 <= self.vl <= self.mvl <= 64 and max(self.source, self.destination) < self.vl and self.cfg <= 31
                and self.x[0] == 0 and not any(entry & 1 for entry in self.predicates))

    # what an instruction's register number names
    def enabled(self):
        bank, size = self.cfg & 7, self.cfg >> 3
        return range(0) if self.cfg == 31 else range(2 * bank, min(16, 2 * bank + 2 ** (size + 1)))

    def named(self, key):
        """Real register, vector, width."""
        for i in reversed(self.enabled()):
            entry = self.registers[i]
            if entry >> 7 & 1 and entry & 31 == key:
                return entry >> 8 & 127, entry >> 15, entry >> 5 & 3
        return key, 0, 0

    def mask(self, key):
        """A function of positions, and zeroing."""
        for i in reversed(self.enabled()):
            entry = self.predicates[i]
            if entry >> 8 & 1 and entry >> 11 == key:
                value, invert = self.x[entry >> 1 & 127], entry >> 9 & 1
                return (lambda p: value >> p & 1 != invert), entry >> 10 & 1
        return (lambda p: True), 0

    def put(self, index, value):
        if index:
            self.x[index] = value & M64

    def run(self, word, allowance):
        """Answer and address."""
        if word & 3 != 3:
            if word >> 12 & 15 == 8 and word & 3 == 2 and word >> 2 & 31:
                return self.serve([word >> 7 & 31, word >> 2 & 31], allowance, self.move, word)
            return 2, 0
        opcode = word & 127
        rd, rs1, rs2, funct3 = word >> 7 & 31, word >> 15 & 31, word >> 20 & 31, word >> 12 & 7
        if opcode in (0x13, 0x1B, 0x33, 0x3B):
            found = operation_of(word)
            if found is None:
                return 2, 0
            return self.serve([rd, rs1] + ([rs2] if found[1] is None else []), allowance, self.operation, found)
        if opcode == 0x03 and funct3 < 7:
            return self.serve([rd, rs1], allowance, self.load, word)
        if opcode == 0x23 and funct3 < 4:
            return self.serve([rs2, rs1], allowance, self.store, word)
        return 2, 0

    def serve(self, keys, allowance, kind, detail):
        names = [self.named(key) for key in keys]
        if any(width for _, _, width in names):
            return 4, 0
        if any(vector and real + self.vl - 1 > 127 for real, vector, _ in names):
            return 3, 0
        return kind(keys, names, allowance, detail)

    def ended(self, size):
        self.source = self.destination = 0
        self.pc = self.pc + size & M64
        return 0, 0

    def operation(self, keys, names, allowance, found):
        name, immediate = found
        on, zeroing = self.mask(keys[0])

        def at(operand, i):
            return operand[0] + i if operand[1] else operand[0]
        while allowance:
            i = self.destination
            if on(i):
                a = self.x[at(names[1], i)]
                b = self.x[at(names[2], i)] if immediate is None else immediate
                self.put(at(names[0], i), OPERATIONS[name](a, b))
                if not names[0][1]:
                    return self.ended(4)
            elif zeroing:
                self.put(at(names[0], i), 0)
            if i + 1 == self.vl:
                return self.ended(4)
            self.source = self.destination = i + 1
            allowance -= 1
        return 1, 0

    def side(self, key, walks):
        """Whether it walks, the positions that are on, and zeroing. Masks are read once, before any element."""
        return (walks, *self.mask(key)) if walks else (walks, lambda p: True, 0)

    def pairs(self, allowance, sides, single, size, element):
        """sides: source and destination. element is given the pair of positions, and whether either is off and so has
        0 moved in place of what the source holds; it gives None, or a fault's answer and address."""
        while allowance:
            places = []
            for (walks, on, zeroing), offset in zip(sides, (self.source, self.destination)):
                p = offset if walks else 0
                while p < self.vl and not on(p) and not zeroing:
                    p += 1
                places.append(p)
            # a side that has run out ends it before anything is zeroed
            if self.vl in places:
                return self.ended(size)
            fault = element(*places, not all(on(p) for (_, on, _), p in zip(sides, places)))
            if fault is not None:
                self.source, self.destination = places
                return fault
            after = [p + 1 if walks else 0 for (walks, _, _), p in zip(sides, places)]
            if single or self.vl in after:
                return self.ended(size)
            self.source, self.destination = after
            allowance -= 1
        return 1, 0

    def move(self, keys, names, allowance, word):
        (to, to_vector, _), (real, vector, _) = names
        sides = [self.side(keys[1], vector), self.side(keys[0], to_vector)]

        def element(i, j, zero):
            self.put(to + j if to_vector else to, 0 if zero else self.x[real + i if vector else real])
        return self.pairs(allowance, sides, not to_vector, 2, element)

    def address(self, operand, offset, i, size):
        real, vector, _ = operand
        return (self.x[real + i] + offset if vector else self.x[real] + offset + i * size) & M64

    def fault(self, address, size):
        """Answer and address of an access that is refused, or None."""
        if address % size:
            return 9, address
        return (5, address) if address + size > len(self.memory) else None

    def load(self, keys, names, allowance, word):
        funct3 = word >> 12 & 7
        size, offset = 2 ** (funct3 & 3), sext(word >> 20, 12)
        to, to_vector, _ = names[0]
        sides = [self.side(keys[1], 1), self.side(keys[0], to_vector)]

        def element(i, j, zero):
            value = 0
            if not zero:
                address = self.address(names[1], offset, i, size)
                fault = self.fault(address, size)
                if fault is not None:
                    return fault
                value = int.from_bytes(self.memory[address:address + size], "little")
            self.put(to + j if to_vector else to, value if funct3 & 4 else sext(value, 8 * size))
            return None
        return self.pairs(allowance, sides, not to_vector, 4, element)

    def store(self, keys, names, allowance, word):
        size = 2 ** (word >> 12 & 3)
        offset = sext(word >> 25 << 5 | word >> 7 & 31, 12)
        real, vector, _ = names[0]
        sides = [self.side(keys[0], vector), self.side(keys[1], 1)]

        def element(i, j, zero):
            address = self.address(names[1], offset, j, size)
            fault = self.fault(address, size)
            if fault is not None:
                return fault
            value = 0 if zero else self.x[real + i if vector else real] & 2 ** (8 * size) - 1
            self.memory[address:address + size] = value.to_bytes(size, "little")
            return None
        return self.pairs(allowance, sides, not vector and not names[1][1], 4, element)


BODY = {1: 3, 2: 3, 3: 4, 4: 9, 5: 6, 6: 10}


def apply(machine, kind, body):
    """The line that a record prints, or None."""
    def part(low, high):
        return int.from_bytes(body[low:high], "little")
    if kind == 5:
        answer, _ = machine.run(part(0, 4), part(4, 6))
        return f"{answer} {machine.pc} {machine.source} {machine.destination}"
    if kind == 6:
        address = part(0, 2)
        answer = 5 if address + 8 > len(machine.memory) else 0
        if not answer:
            machine.memory[address:address + 8] = body[2:10]
    elif kind == 4:
        answer = machine.set_register(body[0], part(1, 9))
    elif kind == 3:
        answer = machine.set_state(part(0, 4))
    else:
        answer = machine.set_entry(machine.registers if kind == 1 else machine.predicates, body[0], part(1, 3))
    return f"refused {answer}" if answer else None


def output(data):
    """What the runner prints for a stream."""
    machine, lines, at = Machine(), [], 0
    while at < len(data):
        kind = data[at]
        if kind not in BODY or len(data) - at - 1 < BODY[kind]:
            lines.append(f"bad record at {at}")
            break
        line = apply(machine, kind, data[at + 1:at + 1 + BODY[kind]])
        if line is not None:
            lines.append(line)
        at += 1 + BODY[kind]
    lines += [f"x{i} {value}" for i, value in enumerate(machine.x) if value]
    return "".join(line + "\n" for line in lines)
