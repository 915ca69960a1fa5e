#!/usr/bin/env python3
"""A plain list that edits and Cancels by the rules, made without the program's theory, for the rows of edit_trial.

  rows.py <stdin             writes what stdout has to be for these commands
  rows.py draw SEED COUNT    draws so many commands on the ids from 2 to 13, for an empty line
"""
import random
import sys


class Line:
    """Entries in order, each an id and what it is; how many stand before the cursor; the zone's lemma and its kept closer."""

    def __init__(self):
        self.entries, self.cursor, self.zone = [], 0, None

    def ids(self):
        return [id for id, _ in self.entries]

    def place(self, id):
        return self.ids().index(id)

    def id_before(self, place):
        return self.ids()[place - 1] if place else 1

    def block(self, place):
        """The places of the lemma and of the closer (None where the block is open) of the block round a place."""
        start = None
        for at, (_, what) in enumerate(self.entries):
            if what == "lemma":
                start = at
            if what in ("opaque", "clear"):
                if start is not None and start <= place <= at:
                    return start, at
                start = None
        return (start, None) if start is not None and place >= start else None

    def in_proof(self):
        return self.zone is None and bool(self.entries) and (self.block(len(self.entries) - 1) or (0, 0))[1] is None

    def cut(self, first, behind):
        gone = self.ids()[first:behind]
        del self.entries[first:behind]
        self.cursor = first
        return gone

    def cut_end(self, first):
        self.zone = None
        return self.cut(first, len(self.entries))

    def outcome(self):
        if self.zone:
            return "Focus %d %d %d" % (*self.zone, self.ids()[-1])
        return "NewTip %d" % self.id_before(self.cursor)

    def add(self, id, what):
        allowed = {"plain": True, "lemma": self.zone is None and not self.in_proof()}.get(what, self.in_proof())
        if id < 2 or id in self.ids() or not allowed:
            return "refused"
        self.entries.insert(self.cursor, (id, what))
        self.cursor += 1
        return "added"

    def edit(self, id):
        """How the edit is told, and what went."""
        if id != 1 and id not in self.ids():
            return "NoSuchState", []
        place = self.place(id) if id != 1 else -1
        if self.zone:
            start = self.place(self.zone[0])
            if place >= self.cursor:
                return "ZoneOpen %d" % self.zone[1], []
            gone = self.cut(place + 1, self.cursor) if place >= start else self.cut_end(place + 1)
            return self.outcome(), gone
        block = self.block(place) if id != 1 else None
        if block and block[1] is not None and place < block[1] and self.entries[block[1]][1] == "opaque":
            start, stop = block
            self.zone = (self.ids()[start], self.ids()[stop])
            gone = self.cut(place + 1, stop)
        else:
            gone = self.cut_end(place + 1)
        return self.outcome(), gone

    def cancel_one(self, id):
        place = self.place(id)
        block = self.block(place)
        inside = block and block[1] is not None and block[0] < place < block[1] and self.entries[block[1]][1] == "opaque"
        if self.zone or inside:
            return self.edit(self.id_before(place))
        gone = self.cut_end(place)
        return self.outcome(), gone

    def cancel(self, ids):
        told, gone, end = "", [], ""
        treated = 0
        for id in ids:
            if id in self.ids():
                if self.zone and self.place(id) >= self.cursor:
                    end = ", ended by %d at %d" % (id, self.zone[1])
                    break
                edit, went = self.cancel_one(id)
                told += edit + ", "
                gone += went
            treated += 1
        return told + "gone" + "".join(" %d" % id for id in gone) + ", treated %d" % treated + end

    def fold(self):
        if not self.zone:
            return "refused"
        stop = self.zone[1]
        self.zone, self.cursor = None, len(self.entries)
        return "folded, closed by %d" % stop

    def run(self, row):
        word, *rest = row.split()
        ids = [int(id) for id in rest]
        if word in ("plain", "lemma", "opaque", "clear"):
            return self.add(ids[0], word)
        if word == "edit":
            return self.edit(ids[0])[0]
        if word == "cancel":
            return self.cancel(ids)
        if word == "fold":
            return self.fold()
        if word == "empty":
            self.__init__()
            return "emptied"
        return "unread"

    def text(self):
        text = "" if self.cursor else " ^"
        for at, (id, what) in enumerate(self.entries):
            text += {"lemma": " [%d", "opaque": " %d]", "clear": " %d)"}.get(what, " %d") % id
            text += " ^" if at + 1 == self.cursor else ""
        text += ", zone %d to %d" % self.zone if self.zone else ""
        return text + ", tip %d" % (self.ids()[-1] if self.entries else 1)


def draw(seed, count):
    random.seed(seed)
    line = Line()
    for _ in range(count):
        if random.random() < 0.1:
            words = ["plain", "lemma", "opaque", "clear", "fold"]
        elif line.zone:
            words = ["plain", "plain", "plain", "edit", "cancel", "fold"]
        elif line.in_proof():
            words = ["plain", "plain", "plain", "opaque", "opaque", "clear", "edit", "cancel"]
        else:
            words = ["plain", "lemma", "lemma", "lemma", "edit", "cancel"]
        word = random.choice(words)
        free = [id for id in range(2, 14) if id not in line.ids()]
        if not free and word == "plain":
            word = random.choice(["edit", "cancel"])
        if word == "fold":
            row = word
        elif word == "edit":
            row = "edit %d" % random.choice([1, 14] + 5 * (line.ids() or [1]))
        elif word == "cancel":
            row = "cancel " + " ".join(str(random.randrange(1, 15)) for _ in range(random.choice([1, 1, 2, 3])))
        else:
            row = "%s %d" % (word, random.choice(free) if free and random.random() < 0.9 else random.randrange(1, 14))
        line.run(row)
        print(row)


if sys.argv[1:2] == ["draw"]:
    draw(int(sys.argv[2]), int(sys.argv[3]))
else:
    line = Line()
    for row in sys.stdin.read().splitlines():
        print("%s => %s" % (row, line.run(row)))
        print("   " + line.text())
