"""The files that the page is tried on. The program makes them, and says what they come to."""
import hashlib
import io
import os
import random
import shutil
import subprocess
import tarfile
from collections import namedtuple

# What a command came to: its status, and the lines that it printed.
Said = namedtuple("Said", "status text")

ID = "000102030405060708090a0b0c0d0e0f"
OTHER_ID = "f" * 32
WIDTH, LANES = 6, 4
# Seats in their order, with their bids. Seat 300 wins, and pays 33.
BIDS = {7: 20, 9: 33, 300: 50}
RESERVE = 40


class Made:
    """A folder of files, and the program that made them."""

    def __init__(self, program, folder):
        self.program = os.path.realpath(program)
        self.folder = folder
        self.random = random.Random("page")
        for make in (
            self.auction,
            self.reserved,
            self.claims,
            self.coin,
            self.damaged,
            self.others,
        ):
            make()

    def path(self, name):
        return os.path.join(self.folder, name)

    def bytes(self, name):
        with open(self.path(name), "rb") as file:
            return file.read()

    def digest(self, name):
        return hashlib.sha256(self.bytes(name)).hexdigest()

    def put(self, name, data):
        with open(self.path(name), "wb") as file:
            file.write(data if isinstance(data, bytes) else data.encode())

    def seed(self):
        return self.random.randbytes(32).hex()

    def run(self, *words, folder=None):
        done = subprocess.run(
            [self.program, *map(str, words)],
            cwd=folder or self.folder,
            stdout=subprocess.PIPE,
            stderr=subprocess.DEVNULL,
            check=False,
        )
        return Said(done.returncode, done.stdout.decode())

    def must(self, *words, folder=None):
        said = self.run(*words, folder=folder)
        if said.status:
            raise AssertionError(f"{words}: {said}")
        return said

    def said(self, words, files):
        """What the program says of words, where files of the folder have the names in them."""
        place = self.path("said")
        shutil.rmtree(place, ignore_errors=True)
        os.mkdir(place)
        for name, source in files.items():
            os.link(self.path(source), os.path.join(place, name))
        return self.run(*words, folder=place)

    def house(self, name, bits, *reserve):
        """An auction with one answer, in a folder of its own: its board and its reply."""
        place = self.path(f"house-{name}")
        os.mkdir(place)
        self.must("announce", ID, WIDTH, LANES, *reserve, folder=place)
        for seat in BIDS:
            seal, secret = self.path(f"seal-{seat}"), self.path(f"secret-{seat}")
            self.must("submit", ID, seal, secret, folder=place)
        self.must("prove", ID, "aa" * 32, self.path(f"board{name}"), folder=place)
        challenge = self.path(f"challenge-{bits}")
        self.must("answer", ID, challenge, self.path(f"reply{name}-{bits}"), folder=place)
        shutil.rmtree(place)

    def auction(self):
        for bits in ("0110", "1100"):
            self.put(f"challenge-{bits}", f"vickrey-challenge 1\nbits {bits}\nend\n")
        self.seeds = {seat: self.seed() for seat in BIDS}
        for seat, bid in BIDS.items():
            files = f"secret-{seat}", f"seal-{seat}"
            self.must("seal", ID, seat, bid, WIDTH, LANES, self.seeds[seat], *files)
        self.house("", "0110")
        os.rename(self.path("board"), self.path("board-once"))
        # A second answer, from a store that was made again. It gives every bid away.
        self.house("", "1100")
        if self.bytes("board") != self.bytes("board-once"):
            raise AssertionError("one auction, two boards")
        self.must("seal", ID, 7, 21, WIDTH, LANES, self.seed(), "secret-7-other", "seal-7-other")
        self.must("seal", ID, 8, 21, WIDTH, LANES, self.seed(), "secret-8", "seal-8")

    def reserved(self):
        self.house("-reserve", "0110", RESERVE)
        self.house("-unsold", "0110", 60)

    def claims(self):
        for kind in ("uniform", "matching"):
            self.must("claim-sample", kind, 1)
            for name in ("board", "challenge-1", "reply-1", "challenge-2", "reply-2"):
                os.rename(self.path(f"claim-{name}"), self.path(f"{kind}-{name}"))

    def coin(self):
        self.parts = []
        for auditor in (1, 2, 3):
            said = self.must("coin-part", ID, auditor, LANES, self.seed(), f"share-{auditor}")
            self.parts.append(said.text)
        shares = [self.bytes(f"share-{auditor}").decode().split("\n")[3] for auditor in (1, 2, 3)]
        lines = ["vickrey-coin 1", f"auction {ID}", f"bits {LANES}", "auditors 3"]
        lines += [part.replace(" commit ", " ").strip() for part in self.parts]
        lines += [line.replace("show", f"show {place + 1}") for place, line in enumerate(shares)]
        self.put("coin", "\n".join([*lines, "end", ""]))

    def damaged(self):
        """Files in which one thing is wrong."""
        board = self.bytes("board").decode()
        lines = board.split("\n")
        self.put("board-cut", "\n".join(lines[:20]) + "\n")
        self.put("board-price", board.replace("price 33\n", "price 34\n"))
        self.put("board-high", board.replace("price 33\n", "price 64\n"))
        self.put("board-low", board.replace("price 33\n", "price 32\n"))
        self.put("board-line", board.replace("\nauction ", "\nnumber ", 1))
        self.put("challenge-line", "vickrey-challenge 1\nbit 0110\nend\n")
        self.put("board-winner", board.replace("winner 300\n", "winner 8\n"))
        reply = self.bytes("reply-0110").decode()
        wrong = reply.replace("\nh ", "\nh 0", 1)
        key = reply.index("\nh ") + 3
        turned = "0" if reply[key] != "0" else "1"
        self.put("reply-key", reply[:key] + turned + reply[key + 1 :])
        self.put("reply-longer", wrong)
        self.put("reply-two-lanes", reply.replace("lanes 4\n", "lanes 2\n"))
        claim = self.bytes("uniform-board").decode()
        self.put("claim-public", claim.replace("\nn 16\n", "\nn 0\n", 1))
        share = self.bytes("share-2").decode()
        bits = share[share.index("show ") + 5 + 65 :].split("\n")[0]
        other = ("1" if bits[0] == "0" else "0") + bits[1:]
        self.put("share-2-other", share.replace(f" {bits}\n", f" {other}\n"))
        self.put("empty", b"")
        self.put("noise", random.Random("noise").randbytes(300_000))
        self.put("text", "<script>document.title = 'taken'</script>\n" * 10)
        self.put("only-end", "end\n")

    def others(self):
        """Files of another auction, and files that are none of the page's."""
        for name in ("board", "seal-7", "secret-7", "share-1", "coin"):
            self.put(f"other-{name}", self.bytes(name).replace(ID.encode(), OTHER_ID.encode()))
        self.must("coin-join", "coin", "challenge-coin")
        drawn = self.bytes("challenge-coin").decode().split("\n")[1].removeprefix("bits ")
        self.put(f"challenge-{drawn}", self.bytes("challenge-coin"))
        self.house("-coin", drawn)
        os.rename(self.path(f"reply-coin-{drawn}"), self.path("reply-coin"))
        self.put("script", "vickrey-script 1\nend\n")
        self.put("parts", "".join(self.parts).replace(" commit ", " "))
        lines = self.bytes("parts").decode().split("\n")
        self.put("parts-other", "\n".join([lines[0], f"part 2 {'0' * 64}", *lines[2:]]))
        self.put("announcement", announcement())
        self.put("locked", b"age-encryption.org/v1\n-> X25519 abc\n")
        self.put("signature", "-----BEGIN SSH SIGNATURE-----\nU1NIU0lH\n")
        self.put("packed", b"PK\x03\x04\x14\0\0\0")
        self.put("web-page", "<!doctype html><title>board</title>")
        self.put("packed-gz", b"\x1f\x8b\x08\0\0\0\0\0")
        self.put("report", "vickrey audit, made by the page in a browser\n")
        self.put("picture", b"\x89PNG\r\n\x1a\n\0\0\0\rIHDR")
        self.put("document", b"%PDF-1.7\n%\xe2\xe3\xcf\xd3\n")
        self.archives()
        self.locked()
        self.put("secret-7-line", self.bytes("secret-7").replace(b"\nbid ", b"\nbids "))
        self.put("seal-7-mailed", self.bytes("seal-7").replace(b"\n", b"\r\n"))
        self.put("seal-7-cut", b"".join(self.bytes("seal-7").splitlines(True)[:-2]))
        store = self.path("store-of-house")
        os.mkdir(store)
        self.must("announce", ID, WIDTH, LANES, folder=store)
        os.rename(os.path.join(store, "house.sqlite"), self.path("store"))

    def archives(self):
        """Archives as a seller has them, and one of other files."""
        house = f"vickrey-house 1\nauction {ID}\nnumber 1\n"
        for name, first, text in (
            ("house", "house", house),
            ("archive", "announcement", announcement()),
            ("packed-tar", "board", self.bytes("board").decode()),
        ):
            head = tarfile.TarInfo(first)
            head.size = len(text.encode())
            with tarfile.open(self.path(name), "w", format=tarfile.USTAR_FORMAT) as archive:
                archive.addfile(head, io.BytesIO(text.encode()))

    def locked(self):
        """A key, and a file that openssl encrypts to it."""
        key, public, paper = (self.path(name) for name in ("private-key", "public-key", "paper"))
        curve = ["-algorithm", "EC", "-pkeyopt", "ec_paramgen_curve:P-256"]
        for words in (
            ["genpkey", *curve, "-out", key],
            ["pkey", "-in", key, "-pubout", "-out", public],
            ["req", "-x509", "-key", key, "-subj", "/CN=auctioneer", "-out", paper],
            ["cms", "-encrypt", "-binary", "-aes-256-gcm", "-in", self.path("secret-7")]
            + ["-outform", "DER", "-out", self.path("locked-cms"), paper],
        ):
            subprocess.run(["openssl", *words], capture_output=True, check=True)


def announcement(**changed):
    """An announcement of the auction of these trials, line by line."""
    lines = {
        "auction": ID,
        "kind": "vickrey",
        "width": WIDTH,
        "lanes": LANES,
        "reserve": "none",
        "unit": "EUR",
        "decimals": 2,
        "auditors": 3,
        "seals": "2096-12-01T12:00:00Z",
        "secrets": "2096-12-02T12:00:00Z",
        "board": "2096-12-03T12:00:00Z",
        "draw": "2096-12-04T12:00:00Z",
        "reply": "2096-12-05T12:00:00Z",
        "key": "none",
        "place": "the notice board",
    }
    lines.update(changed)
    seats = lines.pop("seats", {7: "Ann", 9: "Bo", 300: "Zoë Müller"})
    text = "".join(f"{word} {said}\n" for word, said in lines.items())
    named = "".join(f"seat {seat} {name}\n" for seat, name in seats.items())
    return f"vickrey-announcement 1\n{text}seats {len(seats)}\n{named}end\n"
