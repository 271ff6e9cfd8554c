#!/usr/bin/env python3
"""Databases with logs, to measure how fast logs are decoded. The same call gives the same bytes.

    make_logs.py FOLDER [LINES]      1,000,000 lines in a log by default

Each is a pair of files in the folder: `small` has one message of one signal, `car` 100 messages of 8 to 20 signals, in both byte
orders, with value descriptions and plain and extended multiplexing, `j1939` 60 J1939 messages from 16 source addresses.
"""

import os
import random
import sys
from decimal import Decimal

WORDS = (
    "Wheel Brake Engine Torque Speed Temp Press Volt Curr Door Lamp Seat Valve Pump Fan Gear Axle Steer Yaw Accel Tank Fuel Oil"
    " Cool Heat Batt Charge Cell Motor Inv"
).split()
UNITS = ["", "rpm", "km/h", "V", "A", "kPa", "%", "Nm", "degC", "ms", "bar", "deg"]
FACTORS = ["1", "1", "1", "0.1", "0.01", "0.5", "0.25", "0.125", "0.00390625", "2", "10", "0.0625", "0.001", "1E-005"]
OFFSETS = ["0", "0", "0", "0", "-40", "-100.5", "250", "-32000", "0.5", "-273.15"]
SYMBOLS = ("CM_", "BA_DEF_", "BA_", "VAL_", "BA_DEF_DEF_", "SIG_VALTYPE_", "SG_MUL_VAL_")
HEAD = 'VERSION ""\n\n\nNS_ : \n' + "".join("\t%s\n" % symbol for symbol in SYMBOLS) + "\nBS_:\n\n"


def intel_bits(start, length):
    return list(range(start, start + length))


def motorola_bits(start, length):
    """The positions of the bits from the most significant one, which is the start bit."""
    bits = []
    for _ in range(length):
        bits.append(start)
        start = start + 15 if start % 8 == 0 else start - 1
    return bits


class Layout:
    """Places signals into the free bits of a message."""

    def __init__(self, chance, length, used=()):
        self.chance, self.length, self.used = chance, length, set(used)

    def place(self, length, is_intel):
        for _ in range(60):
            start = self.chance.randrange(8 * self.length)
            bits = intel_bits(start, length) if is_intel else motorola_bits(start, length)
            if max(bits) < 8 * self.length and not self.used & set(bits):
                self.used |= set(bits)
                return start
        return None


def limits(length, is_signed, factor, offset):
    low, high = (-(1 << length - 1), (1 << length - 1) - 1) if is_signed else (0, (1 << length) - 1)
    ends = [number * Decimal(factor) + Decimal(offset) for number in (low, high)]
    return "|".join(format(end.normalize(), "f") for end in sorted(ends))


def signal(name, indicator, field, scale, unit, receiver="Vector__XXX"):
    """The line of a signal; its field is start, length, whether it is Intel (little-endian), and whether it is signed."""
    start, length, is_intel, is_signed = field
    return ' SG_ %s %s: %d|%d@%d%s (%s,%s) [%s] "%s" %s' % (
        name, indicator + " " if indicator else "", start, length, is_intel, "-" if is_signed else "+", *scale,
        limits(length, is_signed, *scale), unit, receiver,
    )  # fmt: skip


def write_log(path, lines, seed, pick):
    """Writes a log whose identifiers come from `pick`, which returns as many as it is asked for. Each frame has eight bytes."""
    chance = random.Random(seed)
    now = 1_700_000_000_000_000
    with open(path, "w", 1 << 20) as file:
        while lines:
            count = min(lines, 100_000)
            lines -= count
            gaps = chance.choices(range(20, 400), k=count)
            heads = pick(chance, count)
            data = chance.randbytes(8 * count).hex().upper()
            out = []
            for at, (gap, head) in enumerate(zip(gaps, heads)):
                now += gap
                out.append("(%d.%06d) can0 %s#%s\n" % (now // 1_000_000, now % 1_000_000, head, data[16 * at : 16 * at + 16]))
            file.write("".join(out))


def small(folder, lines):
    with open(folder + "/small.dbc", "w") as file:
        file.write(HEAD + "BU_: ECU\n\nBO_ 291 Wheel: 8 ECU\n" + signal("Speed", "", (0, 16, 1, 0), ("0.01", "-40"), "rpm") + "\n")
    write_log(folder + "/small.log", lines, 1, lambda chance, count: ["123"] * count)


class Car:
    """The text of a car's messages, as it is built."""

    def __init__(self):
        self.chance = random.Random(2)
        self.nodes = ["ECU%d" % index for index in range(12)]
        self.text, self.values, self.muxes, self.comments, self.attributes = [], [], [], [], []
        self.count = 0

    def field(self, layout, is_small):
        """Start, length and byte order of a signal that fits, or None."""
        chance, one = self.chance, self.chance.random()
        if is_small or one < 0.5:
            length = chance.choice([1, 1, 2, 2, 3, 4])
        else:
            length = chance.choice([5, 7, 8, 8, 10, 12]) if one < 0.9 else 16
        is_intel = chance.random() < 0.5
        for bits in (length, 1):
            start = layout.place(bits, is_intel)
            if start is not None:
                return start, bits, is_intel
        return None

    def add(self, number, layout, indicator, is_small=False):
        """Adds a signal, and returns its name, or None if none fits."""
        chance, field = self.chance, self.field(layout, is_small)
        if field is None:
            return None
        length = field[1]
        name = "%s%s_%d" % (chance.choice(WORDS), chance.choice(WORDS), self.count)
        self.count += 1
        is_signed = length > 4 and chance.random() < 0.4
        has_names = length <= 4 and chance.random() < 0.45
        scale = ("1", "0") if has_names or length < 3 else (chance.choice(FACTORS), chance.choice(OFFSETS))
        unit = "" if has_names else chance.choice(UNITS)
        self.text.append(signal(name, indicator, (*field, is_signed), scale, unit, chance.choice(self.nodes)))
        if has_names:
            described = ['%d "%s state %d"' % (value, chance.choice(WORDS), value) for value in reversed(range(1 << length))]
            self.values.append("VAL_ %d %s %s ;" % (number, name, " ".join(described)))
        if chance.random() < 0.3:
            words = " ".join(chance.choice(WORDS).lower() for _ in range(8))
            self.comments.append('CM_ SG_ %d %s "%s";' % (number, name, words))
        return name

    def branches(self, number, layout, is_extended, wanted):
        """Adds a multiplexor of two bits, signals that are always present, and signals for each of the multiplexor's values."""
        self.text.append(signal("Mux_0", "M", (layout.place(2, True), 2, 1, 0), ("1", "0"), ""))
        self.count += 1
        for _ in range(3):
            self.add(number, layout, "", True)
        for branch in range(4):
            own = Layout(self.chance, 8, layout.used)
            for _ in range(max(2, (wanted - 4) // 4)):
                name = self.add(number, own, "m%d" % branch)
            if branch == 3 and is_extended and name:
                self.muxes.append("SG_MUL_VAL_ %d %s Mux_0 3-3, 5-9;" % (number, name))

    def message(self, index, number):
        chance, wanted = self.chance, self.chance.randint(8, 20)
        self.text.append("BO_ %d Msg_%s_%03d: 8 %s" % (number, chance.choice(WORDS), index, chance.choice(self.nodes)))
        layout, self.count = Layout(chance, 8), 0
        if index % 4 == 3:
            self.branches(number, layout, index % 8 == 7, wanted)
        else:
            while self.count < wanted and self.add(number, layout, "", wanted > 10) is not None:
                pass
        self.text.append("")
        self.attributes.append('BA_ "GenMsgCycleTime" BO_ %d %d;' % (number, chance.choice([10, 20, 50, 100, 1000])))
        words = " ".join(chance.choice(WORDS) for _ in range(5))
        self.comments.append('CM_ BO_ %d "%s\nsecond line";' % (number, words))

    def whole(self):
        definitions = ['BA_DEF_ BO_ "GenMsgCycleTime" INT 0 65535;', 'BA_DEF_DEF_ "GenMsgCycleTime" 100;']
        lines = self.text + self.comments + definitions + self.attributes + self.values + self.muxes
        return HEAD + "BU_: " + " ".join(self.nodes) + "\n\n" + "\n".join(lines) + "\n"


def car(folder, lines):
    made = Car()
    numbers = sorted(made.chance.sample(range(0x80, 0x7F0), 85)) + [0x98000000 + index * 0x1357 for index in range(15)]
    for index, number in enumerate(numbers):
        made.message(index, number)
    with open(folder + "/car.dbc", "w") as file:
        file.write(made.whole())
    names = ["%08X" % (number & 0x1FFFFFFF) if number >> 31 else "%03X" % number for number in numbers]
    weights = [made.chance.choice([100, 50, 20, 10, 1]) for _ in numbers]
    write_log(folder + "/car.log", lines, 3, lambda chance, count: chance.choices(names + ["7F5"], weights + [20], k=count))


# factors, offsets and units of signals in J1939 messages; the last is for 32 bits
J1939_SCALES = [
    ("0.125", "0", "rpm"), ("0.00390625", "0", "km/h"), ("1", "-40", "degC"), ("1", "-125", "%"), ("0.03125", "-273", "degC"),
    ("0.4", "0", "%"), ("0.5", "0", "kPa"), ("0.05", "0", "V"), ("1", "0", ""), ("0.0000001", "-210", "deg"),
]  # fmt: skip


def j1939_signals(chance, number):
    """The lines of the signals of a J1939 message, one bit range after another, and of their value descriptions."""
    text, values, bit = [], [], 0
    while bit < 64 and len(text) < 14:
        length = chance.choice([2, 2, 4, 8, 8, 16, 16, 32])
        if length >= 8 and bit % 8:
            length = 2
        if bit + length > 64:
            break
        *scale, unit = ("1", "0", "") if length < 8 else J1939_SCALES[9] if length == 32 else chance.choice(J1939_SCALES[:9])
        name = "SPN%d_%s%d" % (chance.randrange(20, 9000), chance.choice(WORDS), len(text))
        text.append(signal(name, "", (bit, length, 1, 0), scale, unit))
        if length == 2:
            values.append('VAL_ %d %s 3 "Not available" 2 "Error" 1 "Active" 0 "Passive" ;' % (number, name))
        bit += length
    return text, values


def parameter_groups(chance):
    """60 parameter groups: PDU format, PDU specific and priority of each."""
    made = {}
    for index in range(60):
        if index % 6 == 5:
            key = (chance.randrange(0, 240), 0)
        else:
            key = (chance.choice([0xF0, 0xFE, 0xFE, 0xFF]), chance.randrange(256))
        while key in made:
            key = (key[0], (key[1] + 1) % 256) if key[0] >= 240 else (key[0] + 1, 0)
        made[key] = chance.choice([3, 6, 6, 6, 7])
    return [(*key, priority) for key, priority in made.items()]


def j1939(folder, lines):
    chance = random.Random(4)
    text, values, attributes = [], [], []
    chosen = parameter_groups(chance)
    for index, (form, specific, priority) in enumerate(chosen):
        number = 0x80000000 | priority << 26 | form << 16 | specific << 8 | 0xFE
        text.append("BO_ %d PG_%s%s_%02d: 8 Vector__XXX" % (number, chance.choice(WORDS), chance.choice(WORDS), index))
        signals, described = j1939_signals(chance, number)
        text += signals + [""]
        values += described
        attributes.append('BA_ "VFrameFormat" BO_ %d 3;' % number)
    definitions = [
        'BA_DEF_ BO_ "VFrameFormat" ENUM "StandardCAN","ExtendedCAN","reserved","J1939PG";',
        'BA_DEF_DEF_ "VFrameFormat" "J1939PG";',
    ]
    with open(folder + "/j1939.dbc", "w") as file:
        file.write(HEAD + "BU_:\n\n" + "\n".join(text + definitions + attributes + values) + "\n")
    sources = [0, 3, 11, 15, 17, 23, 33, 39, 49, 50, 61, 71, 85, 160, 221, 240]
    names = []
    for form, specific, priority in chosen:
        for source in chance.sample(sources, 4):
            for destination in (255,) if form >= 240 else (255, 0, 3):
                names.append("%02X%02X%02X%02X" % (priority << 2, form, specific if form >= 240 else destination, source))
    weights = [1] * len(names) + [3]
    write_log(folder + "/j1939.log", lines, 5, lambda chance, count: chance.choices(names + ["18DA10F1"], weights, k=count))


def main():
    folder = sys.argv[1]
    lines = int(sys.argv[2]) if len(sys.argv) > 2 else 1_000_000
    os.makedirs(folder, exist_ok=True)
    for make in (small, car, j1939):
        make(folder, lines)


if __name__ == "__main__":
    main()
