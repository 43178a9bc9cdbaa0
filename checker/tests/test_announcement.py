"""The form of announcements, line by line."""
from ..announcement import read_announcement, seats_of_sides, text_of, time_of
from ..files import Verdict
from .folders import InFolder, announced

LINES = [line.decode() for line in text_of(announced(width=20, lanes=40, reserve=5000))]


class OfFiles(InFolder):
    """What is said of announcements that lie in a file."""

    def fault(self, data):
        """The fault line of a file, or 0."""
        self.put("announcement", data)
        try:
            read_announcement(b"announcement")
        except Verdict as verdict:
            self.assertEqual(verdict.status, 4)
            line = verdict.line.split(b" ")
            self.assertEqual(line[:3], [b"malformed", b"announcement", b"line"])
            self.assertTrue(verdict.more)
            return int(line[3])
        return 0

    def fault_in(self, lines):
        return self.fault("".join(f"{line}\n" for line in lines).encode())


class Form(OfFiles):
    def fault_of(self, number, text):
        """The fault line where a line has another text."""
        return self.fault_in(LINES[: number - 1] + [text] + LINES[number:])

    def test_what_is_written_is_read_back(self):
        said = announced(width=20, reserve=0, kind="vickrey", key="age1q", auditors=16,
                         seats={1: "Zoë", 65535: "A  B"})
        self.assertEqual(self.fault(b"".join(line + b"\n" for line in text_of(said))), 0)
        read = read_announcement(b"announcement")
        self.assertEqual(text_of(read), text_of(said))

    def test_each_line_is_at_fault_where_it_is_another(self):
        for number in range(1, len(LINES) + 1):
            self.assertEqual(self.fault_of(number, "another 1"), number)

    def test_numbers_have_their_limits(self):
        table = {4: ("width", 1, 40), 5: ("lanes", 1, 64), 8: ("decimals", 0, 9),
                 9: ("auditors", 0, 16)}
        for line, (word, least, most) in table.items():
            for number in (least - 1, most + 1):
                self.assertEqual(self.fault_of(line, f"{word} {number}"), line)
            self.assertEqual(self.fault_of(line, f"{word} {most}"), 0)
            self.assertEqual(self.fault_of(line, f"{word} 0{most}"), line)

    def test_a_reserve_is_below_the_width(self):
        self.assertEqual(self.fault_of(6, f"reserve {2**20 - 1}"), 0)
        self.assertEqual(self.fault_of(6, f"reserve {2**20}"), 6)

    def test_deadlines_never_go_back(self):
        early, late = "2026-12-01T12:00:00Z", "2026-12-02T12:00:00Z"
        base = LINES[:9] + [f"seals {late}", "secrets none", f"board {late}", "draw none"]
        for reply, fault in ((late, 0), ("none", 0), (early, 14)):
            lines = base + [f"reply {reply}"] + LINES[14:]
            self.assertEqual(self.fault("".join(f"{line}\n" for line in lines).encode()), fault)

    def test_times_are_those_of_the_calendar(self):
        right = ["2024-02-29", "2000-02-29", "2026-12-31", "0000-01-01", "9999-12-31"]
        wrong = ["2023-02-29", "1900-02-29", "2026-13-01", "2026-00-01", "2026-04-31", "2026-01-00"]
        for day in right:
            self.assertTrue(time_of(f"{day}T23:59:59Z".encode()), day)
        for day in wrong:
            self.assertIsNone(time_of(f"{day}T23:59:59Z".encode()), day)
        for clock in ("24:00:00", "23:60:00", "23:59:60", "1:00:00"):
            self.assertIsNone(time_of(f"2026-12-01T{clock}Z".encode()), clock)

    def test_texts_have_no_control_character_and_no_space_at_an_end(self):
        for name in ("", " Ann", "Ann ", "A\tB", "A\x7fB", "A\x9fB", "x" * 201, "é" * 101):
            self.assertEqual(self.fault_of(18, f"seat 7 {name}"), 18, repr(name))
        for name in ("A  B", "x" * 200, "é" * 100, "end", "12"):
            self.assertEqual(self.fault_of(18, f"seat 7 {name}"), 0, repr(name))
        bad = "".join(f"{line}\n" for line in LINES).encode().replace(b"Ann", b"\xff")
        self.assertEqual(self.fault(bad), 18)

    def test_seats_ascend(self):
        for seats, fault in (("7 Ann\nseat 8 Bo", 0), ("7 Ann\nseat 7 Bo", 19),
                             ("8 Ann\nseat 7 Bo", 19), ("65536 Ann\nseat 7 Bo", 18)):
            lines = LINES[:16] + ["seats 2", f"seat {seats}", "end"]
            self.assertEqual(self.fault("".join(f"{line}\n" for line in lines).encode()), fault)

    def test_claims_have_no_reserve_and_their_own_numbers_of_seats(self):
        def fault(kind, width, reserve, count):
            seats = [f"seat {seat} Ann" for seat in range(1, count + 1)]
            lines = [*LINES[:2], f"kind {kind}", f"width {width}", LINES[4], f"reserve {reserve}",
                     *LINES[6:16], f"seats {count}", *seats, "end"]
            return self.fault("".join(f"{line}\n" for line in lines).encode())

        table = {("uniform 3", 40, "none", 3): 0, ("uniform 3", 40, "none", 2): 17,
                 ("uniform 3", 40, "5", 3): 6, ("uniform 0", 4, "none", 3): 3,
                 ("uniform 65", 4, "none", 65): 3, ("matching 2", 16, "none", 8): 0,
                 ("matching 2", 17, "none", 8): 4, ("matching 2", 16, "none", 7): 17,
                 ("matching 17", 16, "none", 8): 3, ("matching", 16, "none", 8): 3,
                 ("vickrey", 40, "none", 64): 0, ("vickrey", 40, "none", 65): 17,
                 ("matching 16", 16, "none", 512): 0}
        for words, line in table.items():
            self.assertEqual(fault(*words), line, words)

    def test_cuts_and_bytes_behind_the_end(self):
        whole = "".join(f"{line}\n" for line in LINES).encode()
        self.assertEqual(self.fault(whole + b"\n"), len(LINES) + 1)
        self.assertEqual(self.fault(whole[:-1]), len(LINES))
        self.assertEqual(self.fault(b""), 1)
        for number in range(len(LINES)):
            cut = "".join(f"{line}\n" for line in LINES[:number]).encode()
            self.assertEqual(self.fault(cut), number + 1)


SALE = "Three tickets"
AUDITORS = ("Cleo", "Dan & Eve")
VERSION_2 = """vickrey-announcement 2
auction 000102030405060708090a0b0c0d0e0f
sale Three tickets
kind uniform 1
width 20
lanes 40
reserve 5000
unit EUR
decimals 2
auditors 2
auditor 1 Cleo
auditor 2 Dan & Eve
seals 2026-12-01T12:00:00Z
secrets 2026-12-02T12:00:00Z
board none
parts 2026-12-03T12:00:00Z
draw 2026-12-04T12:00:00Z
reply none
key none
place the notice board
seats 3
seat 7 Ann
seat 8 Molesolder
seat 9 Molesolder
end
""".splitlines()
MATCHING = [*VERSION_2[:3], "kind matching 2", "width 1", "lanes 40", "reserve none",
            *VERSION_2[7:20], "seats 8", "first 1 Ann", "first 2 Bo", "second 1 Xaver",
            "second 2 Yvonne", "end"]


class Version2(OfFiles):
    def fault_of(self, number, *texts, lines=VERSION_2):
        """The fault line where other lines stand in place of one."""
        return self.fault_in([*lines[: number - 1], *texts, *lines[number:]])

    def read(self, lines):
        self.assertEqual(self.fault_in(lines), 0)
        return read_announcement(b"announcement")

    def test_what_it_says(self):
        said = self.read(VERSION_2)
        self.assertEqual((said.version, said.sale, said.kind, said.count), (2, SALE, "uniform", 1))
        self.assertEqual((said.auditors, said.auditor_names), (2, AUDITORS))
        self.assertEqual(said.deadlines["parts"], "2026-12-03T12:00:00Z")
        self.assertEqual(said.seats, {7: "Ann", 8: "Molesolder", 9: "Molesolder"})
        self.assertEqual(said.own_seats(), [8, 9])
        self.assertIsNone(said.sides)

    def test_each_line_is_at_fault_where_it_is_another(self):
        for lines in (VERSION_2, MATCHING):
            for number in range(1, len(lines) + 1):
                self.assertEqual(self.fault_of(number, "another 1", lines=lines), number)

    def test_cuts_and_bytes_behind_the_end(self):
        for lines in (VERSION_2, MATCHING):
            self.assertEqual(self.fault_in([*lines, ""]), len(lines) + 1)
            for number in range(len(lines)):
                self.assertEqual(self.fault_in(lines[:number]), number + 1)

    def test_a_matching_names_both_sides(self):
        said = self.read(MATCHING)
        self.assertEqual(said.sides, (("Ann", "Bo"), ("Xaver", "Yvonne")))
        ranks = {1: ("Ann", "Xaver"), 2: ("Ann", "Yvonne"), 3: ("Bo", "Xaver"),
                 4: ("Bo", "Yvonne"), 5: ("Xaver", "Ann"), 6: ("Xaver", "Bo"),
                 7: ("Yvonne", "Ann"), 8: ("Yvonne", "Bo")}
        self.assertEqual({seat: said.rank_at(seat) for seat in said.seats}, ranks)
        self.assertEqual(said.seats, {seat: giver for seat, (giver, _) in ranks.items()})

    def test_every_seat_of_a_matching_is_one_rank(self):
        for count in (1, 3, 16):
            first, second = ([f"{side}{at}" for at in range(count)] for side in "ab")
            seats = seats_of_sides(first, second)
            self.assertEqual(list(seats), list(range(1, 2 * count**2 + 1)))
            for i in range(1, count + 1):
                for j in range(1, count + 1):
                    self.assertEqual(seats[(i - 1) * count + j], first[i - 1])
                    self.assertEqual(seats[count**2 + (j - 1) * count + i], second[j - 1])

    def test_names_are_numbered_one_after_another(self):
        table = [(11, ["auditor 2 Cleo"]), (11, []), (12, ["auditor 2 Dan", "auditor 3 Eve"])]
        faults = [11, 11, 13]
        self.assertEqual([self.fault_of(*row[:1], *row[1]) for row in table], faults)
        sides = [(22, ["first 2 Ann"]), (24, ["first 3 Xaver"]), (25, ["second 3 Y"])]
        self.assertEqual([self.fault_of(at, *texts, lines=MATCHING) for at, texts in sides],
                         [22, 24, 25])

    def test_parts_have_a_deadline_only_with_auditors(self):
        def fault(*parts):
            return self.fault_in([*VERSION_2[:9], "auditors 0", *VERSION_2[12:15], *parts,
                                  *VERSION_2[16:]])

        self.assertEqual(fault("parts none"), 0)
        self.assertEqual(fault("parts 2026-12-03T12:00:00Z"), 14)
        self.assertEqual(fault(), 14)
        self.assertEqual(self.fault_of(16, "parts 2026-12-02T11:59:59Z"), 16)
        self.assertEqual(self.fault_of(17, "draw 2026-12-03T11:59:59Z"), 17)

    def test_a_least_price_takes_one_seat_more_than_units_and_a_bidder(self):
        def fault(kind, reserve, count):
            seats = [f"seat {seat} Ann" for seat in range(1, count + 1)]
            return self.fault_in([*VERSION_2[:3], f"kind {kind}", *VERSION_2[4:6],
                                  f"reserve {reserve}", *VERSION_2[7:20], f"seats {count}", *seats,
                                  "end"])

        table = {("uniform 1", 0, 2): 21, ("uniform 1", 0, 3): 0, ("uniform 3", 5, 4): 21,
                 ("uniform 3", 5, 5): 0, ("uniform 62", 5, 64): 0, ("uniform 63", 5, 64): 21,
                 ("uniform 64", "none", 1): 0, ("uniform 3", "none", 65): 21,
                 ("uniform 3", 2**20, 5): 7, ("vickrey", 5, 1): 0, ("vickrey", 5, 65): 21}
        for words, line in table.items():
            self.assertEqual(fault(*words), line, words)

    def test_a_matching_has_no_reserve_and_all_its_seats(self):
        self.assertEqual(self.fault_of(7, "reserve 0", lines=MATCHING), 7)
        for count in (7, 9):
            self.assertEqual(self.fault_of(21, f"seats {count}", lines=MATCHING), 21)

    def test_no_text_turns_or_hides_another(self):
        barred = [0x61C, 0xFEFF, *range(0x200B, 0x2010), *range(0x2028, 0x202F),
                  *range(0x2060, 0x206A)]
        lines = {3: "sale", 8: "unit", 11: "auditor 1", 19: "key", 20: "place", 22: "seat 7"}
        for number, start in lines.items():
            for code in barred:
                self.assertEqual(self.fault_of(number, f"{start} A{chr(code)}"), number)
            for name in ("A\u200a", "A\u2010", "A\u2027", "A\u202f", "A\u206a", "\u05d3\u05d5\u05d3"):
                self.assertEqual(self.fault_of(number, f"{start} {name}"), 0, repr(name))

    def test_version_1_takes_such_texts_as_before(self):
        self.assertEqual(self.fault_in([*LINES[:17], "seat 7 A\u202e", "end"]), 0)
