"""Words of random scripts: numbers, lists, policies and machines, mostly right. Not proved."""

import random

MODES = ["bind", "many", "interleave", "interleave", "weighted", "weighted", "prefer"]
BOUNDS = [0, 1, 2, 3, 4, 5, 63, 64, 65, 127, 128, 255, 256, 257, 4095, 4096, 4097, 65535, 65536,
          65537, 2**31, 2**32 - 1, 2**32, 2**35 - 1, 2**35, 2**35 + 1, 2**36, 2**47 - 4096,
          2**47 - 1, 2**47, 2**47 + 4096, 2**63, 2**64 - 4096, 2**64 - 1, 2**64, 10**19,
          10**20 - 1, 10**20]


class Words:
    """The words of one script, and the dice that they come from."""

    def __init__(self, seed):
        self.dice = random.Random(f"script {seed}")

    def likely(self, chance):
        return self.dice.random() < chance

    # ---- faults of words

    def spoilt(self, line):
        """A line with a near-right fault of its words."""
        words = line.split(" ")
        at = self.dice.randrange(len(words))
        way = self.dice.randrange(11)
        if way == 0:
            del words[at]
        elif way == 1:
            words.insert(at, self.dice.choice(["", "0", words[at]]))
        elif way == 2:
            words[at] = str(self.dice.choice(BOUNDS))
        elif way == 3:
            words[at] += self.dice.choice(["\r", "\0", "\t", "\xe9", "x", ",", ":", "=static", "-"])
        elif way == 4:
            word = words[at]
            words[at] = self.dice.choice([word.upper(), word.capitalize(), word[:-1]])
        elif way == 5:
            long = ["0x1" + "0" * 16, "0" * 20 + "1"]
            words[at] = self.dice.choice(["0x", "0X10", "-1", "+1"] + long)
        elif way == 6:
            words.append(self.dice.choice(["", "0", "flat"]))
        elif way == 7:
            words[0] = self.dice.choice(["show", "Map", "machine", "limits", "exit", "mem"])
        elif way == 8:
            words.append("0" * (4096 - len(line) - self.dice.randrange(3)))
        elif way == 9:
            words[0] = self.dice.choice(["#", " "]) + words[0]
        else:
            words[at] = words[at].replace("0x", self.dice.choice(["0x00", "0X", "0xg"]))
        return " ".join(words)

    def number(self, value):
        """A number in one of its forms."""
        forms = [str(value)] * 3 + [hex(value)] * 3
        forms += ["0x" + format(value, "X"), "0" + str(value), "0x0" + format(value, "x")]
        return self.dice.choice(forms)

    # ---- machines

    def machine_words(self):
        """A machine: mostly 2 to 8 nodes, at times some without memory."""
        kinds = [1] + [2, 3, 4, 4, 4, 5, 6, 8, 8] * 3 + [20, 64, 64, 130, 256]
        self.nodes = self.dice.choice(kinds)
        self.memory = set(range(self.nodes))
        if self.likely(0.4):
            self.memory = self.some_nodes(self.nodes)
        words = [self.nodes, self.list_text(self.memory), self.frames_word(), self.distances_word()]
        return words

    def frames_word(self):
        """Few frames mostly, so that nodes are exhausted; at times a word's border, or none."""
        few = [0, 1, 1, 2, 2, 3, 4, 64, 65, 130]
        self.most = self.dice.choice(few)
        if self.likely(0.4):
            return self.number_of_item(self.most)
        given = [self.dice.choice(few) if it in self.memory else 0 for it in range(self.nodes)]
        self.most = max(given)
        return ",".join(map(str, given))

    def number_of_item(self, value):
        return self.dice.choice(["", "", "0", "000"]) + str(value)

    def distances_word(self):
        """`flat` or a table, at times in a kernel's order."""
        return ("kernel:" if self.likely(0.4) else "") + self.table_word()

    def table_word(self):
        """`flat`, or a table that is asymmetric mostly; few distances, so that some are ties, or
        are none by 1."""
        if self.nodes > 20 or self.likely(0.2):
            return "flat"
        some = self.dice.sample([11, 12, 15, 20, 21, 30, 99, 100, 254, 255], 3)
        if self.likely(0.3):
            some = self.dice.choice([[20], [20, 21], [20, 21, 22], [11], [11, 12]])
        same = self.likely(0.2)
        table = [[10 if one == other else self.dice.choice(some) for other in range(self.nodes)]
                 for one in range(self.nodes)]
        if same:
            table = [[table[min(one, other)][max(one, other)] for other in range(self.nodes)]
                     for one in range(self.nodes)]
        rows = [",".join(map(str, row)) for row in table]
        return (";" if self.likely(0.9) else ",").join(rows)

    def bad_machine(self, words):
        """A machine with one fault or two."""
        for _ in range(self.dice.randint(1, 2)):
            way = self.dice.randrange(7)
            if way == 0:
                words[0] = self.dice.choice([0, 257, self.nodes + 1, 2**32 - 1, 2**32])
            elif way == 1:
                words[1] = self.dice.choice([self.bad_list(), str(self.nodes), "255", "256"])
            elif way == 2:
                words[2] = self.dice.choice(["4096", "4097", "1,1", "99999", "4294967295",
                                             "4294967296", "1,", "0x1", "12345678901"])
            elif way == 3:
                words[3] = self.dice.choice(["10", "10,20;20,10", "10,20;20,11", "flat ", "Flat",
                                             "kernel:", "kernel", "kernel:10,20;20,11",
                                             "kernel:kernel:flat", "flat:kernel"])
            elif way == 4:
                other = self.dice.choice(["0", "11", "256", "1x"])
                words[3] = str(words[3]).replace("10", other, 1)
            elif way == 5:
                other = self.dice.choice(["10", "0", "255", ""])
                words[3] = str(words[3]).replace("20", other, 1)
            else:
                words[2] = ",".join(["1"] * min(self.nodes, 256))
        return words

    def bounds_of_limits(self):
        """Limits at their own bounds."""
        pick = self.dice.choice
        return (pick([65536, 65537, 0, 2**32 - 1, 2**32, 3]), pick([1024, 1025, 0, 7]),
                pick([2**32 - 1, 2**32, 0, 50, 30]))

    def small_limits(self):
        """Small limits, so that they are reached."""
        pick = self.dice.choice
        return pick([1, 2, 3, 4, 6, 9]), pick([0, 1, 2, 3, 1024]), pick([8, 15, 30, 50, 2**32 - 1])

    # ---- lists and policies

    def some_nodes(self, most):
        return set(self.dice.sample(range(most), self.dice.randint(1, most)))

    def list_text(self, nodes):
        """A set as a list: in order with ranges mostly, else in disorder with repeats."""
        items, rest = [], sorted(nodes)
        while rest:
            length = 1
            while length < len(rest) and rest[length] == rest[0] + length:
                length += 1
            items.append(str(rest[0]) if length == 1 else f"{rest[0]}-{rest[0] + length - 1}")
            rest = rest[length:]
        if self.likely(0.1):
            self.dice.shuffle(items)
            items += [items[0]]
        return ",".join(items)

    def bad_list(self):
        return self.dice.choice(["", "0,", ",0", "0,,1", "3-1", "256", "0-256", "300-299", "00001",
                                 "1-", "-1", "0-1-2", "a", "0x1", "0;1", "9999", "10000", "0-99999",
                                 "1,3-2,a", "a,3-2", "0001", "255"])

    def nodes_of_policy(self):
        """Nodes of the machine mostly, some without memory, some that it lacks."""
        if self.likely(0.04):
            return self.bad_list()
        if self.likely(0.12):
            return self.list_text(set(self.dice.sample(range(256), self.dice.randint(1, 5))))
        most = min(256, self.nodes + self.dice.choice([0, 0, 0, 2, 5]))
        count = self.dice.randint(1, min(most, 6))
        return self.list_text(set(self.dice.sample(range(most), count)))

    def policy(self):
        if self.likely(0.05):
            return self.bad_policy()
        if self.likely(0.2):
            return self.dice.choice(["default", "local", "prefer", "default", "default=relative"])
        flag = self.dice.choice(["", "", "=static", "=relative"])
        return f"{self.dice.choice(MODES)}{flag}:{self.nodes_of_policy()}"

    def bad_policy(self):
        """Names, flags and lists of which each may be right, but not all together."""
        name = self.dice.choice(MODES + ["default", "local"])
        if self.likely(0.15):
            name = self.dice.choice(["Bind", "binds", "prefer(many)", "", "many "])
        form = self.dice.choice(["", "=static", "=relative", "=static=relative"])
        if self.likely(0.15):
            wrong = ["=relative=static", "=static=static", "=", "=Static", "=staticx"]
            form = self.dice.choice(wrong)
        tail = self.dice.choice(["", ":0"])
        if self.likely(0.3):
            tail = self.dice.choice([":", ":0=static", "::0", ":0:1", ":3-1", ":256", ":x"])
        return name + form + tail
