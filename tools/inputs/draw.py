"""What is drawn at random: chances, choices, integers, characters and their escapes."""

LETTERS = "abcxyzABCE_ntru0159 "
OTHERS = ("\"\\/'#,:[]{}()=.-+%\n\r\t\b\f\0\x01\x1f\x7f\u0080\u00e9\u0301\u07ff\u0800\u2028\u3042\ufeff\ufffd\uffff"
          "\U00010000\U0001f60b\U0010ffff")
NAMED = {"\n": "n", "\r": "r", "\t": "t", "\b": "b", "\f": "f", "\0": "0"}
EDGES = [0, 1, 2, 9, 10, 99, 100, 127, 128, 255, 256, 32767, 32768, 65535, 65536, 2**31 - 1, 2**31,
         2**32 - 1, 2**32, 10**18, 2**63 - 1, 2**63, 10**19, 2**64 - 1, 2**64, 2**127, 2**128 - 1]


class Draw:
    """What a generator of random numbers gives."""

    def __init__(self, rng):
        self.rng, self.random = rng, rng.random
        self.levels = self.deepest = 0

    def below(self, count):
        return int(self.random() * count)

    def chance(self, part):
        return self.random() < part

    def pick(self, items):
        return items[int(self.random() * len(items))]

    def nested(self, drawn):
        """What is drawn of a type that contains itself, one level further in. The first says how far it goes."""
        if self.levels == 0:
            self.deepest = self.pick((1, 2, 3, 4, 7))
        self.levels += 1
        found = drawn()
        self.levels -= 1
        return found

    def is_deepest(self):
        """Whether what is drawn here holds no more of its type."""
        return 0 < self.deepest <= self.levels

    def variant(self, variants):
        """A variant of an enum by its place."""
        return 0 if self.is_deepest() else self.below(len(variants))

    def few(self):
        """A small count, now and then a larger one; within a type that contains itself none to two."""
        if self.levels:
            return 0 if self.is_deepest() else self.below(3)
        return self.below(4) if self.random() < 0.95 else self.below(20)

    def integer(self, low, high):
        """An integer of a range, or now and then one beside it."""
        number = self.pick(EDGES) if self.chance(0.5) else self.rng.getrandbits(1 + self.below(66))
        if low < 0 and self.chance(0.5):
            number = -number - self.below(2)
        if low <= number <= high or self.chance(0.04):
            return number
        return self.pick((low, high, low, high, low - 1, high + 1, 0)) if self.chance(0.3) else (
            low + abs(number) % (high - low + 1))

    def text(self):
        """A text: none to some characters, and now and then many."""
        count = self.below(5) if self.random() < 0.85 else self.below(70)
        plain = self.random() < 0.5
        return "".join(self.pick(LETTERS if plain or self.random() < 0.6 else OTHERS) for _ in range(count))

    def numeral(self, number):
        """A spelling of an integer in JSON and RON."""
        sign = "-" if number < 0 or number == 0 and self.chance(0.2) else "+" if self.chance(0.08) else ""
        zeros = "0" * (1 + self.below(22)) if self.chance(0.08) else ""
        return f"{sign}{zeros}{abs(number)}"

    def float(self):
        """A run that is a decimal, or nearly one."""
        digits = ("", "0", "1", "12", "007")
        run = self.pick(("", "", "-", "+")) + self.pick(digits)
        run += self.pick(("", ".", ".5", ".25"))
        return run + self.pick(("", "", "e5", "E-5", "e", "e+5", "e-"))

    def decimal(self):
        """A decimal, now and then one that is none."""
        good = self.pick(("0.5", "-1.25", "+01.50", "1.", "-.5", "1e5", "1.5E-3", "12.0e00"))
        return good if self.chance(0.8) else self.pick((self.float(), ".5", "1", "1.5 ", "", "1.5x"))

    def hexadecimal(self, number):
        digits = f"{number:04x}"
        return digits if self.chance(0.7) else digits.upper()

    def escaped(self, char):
        """A character as `\\u`, in two where it takes a pair of surrogates."""
        code = ord(char)
        if code < 0x10000:
            return "\\u" + self.hexadecimal(code)
        code -= 0x10000
        return f"\\u{self.hexadecimal(0xD800 + (code >> 10))}\\u{self.hexadecimal(0xDC00 + code % 0x400)}"

    def quoted(self, text):
        """A spelling of a text in JSON and RON."""
        return '"' + "".join([self.piece(char) for char in text]) + '"'

    def piece(self, char):
        chance = self.random()
        if char in NAMED and (char == "\0" or chance < 0.4):
            return "\\" + NAMED[char] if chance < 0.6 else self.escaped(char)
        if char in '"\\':
            return "\\" + char if chance < 0.9 else self.escaped(char)
        if chance < 0.9:
            return char
        return self.escaped(char) if chance < 0.97 or char in "nrtbf0u" else "\\" + char
