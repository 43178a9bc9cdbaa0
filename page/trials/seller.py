"""The tab Sell, as a seller uses it, with bidders and auditors who use the program."""
import io
import os
import shutil
import tarfile

from browser import PATIENCE

LANES = 4
BIDS = {7: 2000, 9: 3350, 300: 5000}
NAMES = {7: "Ann", 9: "Ben & Co", 300: "Cleo"}
STEPS = ["terms", "take", "prove", "draw", "pack"]


class Seller:
    """An auction that is sold in the page; its files are made in a folder of its own."""

    def __init__(self, desk, name="sold", auditors=0):
        self.desk, self.browser, self.made = desk, desk.browser, desk.made
        self.folder = desk.made.path(f"{desk.browser.name}-{name}")
        shutil.rmtree(self.folder, ignore_errors=True)
        os.mkdir(self.folder)
        self.auditors = auditors
        self.houses = []
        self.parts = []
        self.id = None

    def path(self, name):
        return os.path.join(self.folder, name)

    def bytes(self, name):
        with open(self.path(name), "rb") as file:
            return file.read()

    def put(self, name, data):
        with open(self.path(name), "wb") as file:
            file.write(data if isinstance(data, bytes) else data.encode())

    def program(self, *words):
        return self.made.must(*words, folder=self.folder)

    # What is seen

    def open(self):
        self.desk.open("sell")
        return self

    def says(self, words, place="sell"):
        """Waits until the place of a form says these words; what it says is answered."""
        return self.browser.wait(
            "const say = document.querySelector(`#${arguments[0]}-work .say`);"
            "return say.textContent.includes(arguments[1]) && [say.className, say.textContent]",
            place,
            words,
            patience=PATIENCE,
        )

    def forms(self):
        """The steps whose forms are seen."""
        seen = self.desk.run(
            "return arguments[0].filter((name) => !document.getElementById(`sell-${name}`).hidden)",
            STEPS,
        )
        return seen

    def links(self, tool="sell"):
        return self.desk.run(
            "return [...document.querySelectorAll(`#${arguments[0]}-work a.save`)]"
            ".map((link) => link.download)",
            tool,
        )

    def rows(self):
        """What is told of each seat."""
        return self.desk.run(
            "return [...document.querySelectorAll('#sell-rows li')].map((row) => "
            "[row.querySelector('strong').textContent, row.querySelector('.told').textContent])"
        )

    # What is saved

    def save_house(self):
        """Saves the house that is offered: its name."""
        self.says("Save the house now")
        [name] = self.links()
        self.put(name, self.desk.save("sell", name))
        self.houses.append(name)
        return name

    def show_house(self, name):
        self.browser.choose("#sell-house", self.path(name))

    def keep(self):
        """Saves the house, and opens what was saved."""
        name = self.save_house()
        self.show_house(name)
        self.says("is saved.")
        return name

    def save(self, name, tool="sell"):
        data = self.desk.save(tool, name)
        self.put(name, data)
        return data

    def unpack(self, name, folder):
        """The files of a house, in a new folder."""
        with tarfile.open(fileobj=io.BytesIO(self.bytes(name))) as archive:
            archive.extractall(self.path(folder), filter="data")
        return self.path(folder)

    def choose_shares(self, *paths):
        """These shares alone: Firefox adds what is chosen to what was."""
        self.browser.run(
            "const field = document.getElementById('sell-draw-shares');"
            "if (field.files.length) field.nextElementSibling.click()"
        )
        self.browser.choose("#sell-draw-shares", *paths)

    # Steps

    def fill_terms(self, encrypted=False, **others):
        box = "const box = document.getElementById('sell-terms-encrypted');"
        self.browser.run(f"{box} if (box.checked !== arguments[0]) box.click()", encrypted)
        fields = dict(
            unit="EUR",
            decimals=2,
            highest="100",
            reserve="none",
            seats="\n".join(f"{seat} {name}" for seat, name in NAMES.items()),
            place="the notice board",
            auditors=self.auditors,
            lanes=LANES,
            seals="2096-12-01 12:00",
            secrets="2096-12-02 12:00",
            board="none",
            draw="2096-12-04 12:00",
            reply="2096-12-05 12:00",
            key="none",
        )
        self.desk.fill("sell-terms", **dict(fields, **others))

    def announce(self, **others):
        self.fill_terms(**others)
        self.browser.click("#sell-terms-run")
        self.keep()
        lines = self.save("announcement").decode().splitlines()
        self.id = lines[1].split(" ")[1]
        self.width = lines[3].split(" ")[1]
        return lines

    def seal(self, seat, bid, name=None, auction=None, width=None, lanes=LANES):
        name = name or seat
        words = (auction or self.id, seat, bid, width or self.width, lanes, self.made.seed())
        self.program("seal", *words, f"secret-{name}", f"seal-{name}")

    def seal_all(self):
        for seat, bid in BIDS.items():
            self.seal(seat, bid)

    def hand_in(self, *names):
        self.browser.choose("#sell-take-files", *map(self.path, names))

    def all_files(self, seats=BIDS):
        return [f"{kind}-{seat}" for seat in seats for kind in ("seal", "secret")]

    def take(self):
        self.seal_all()
        self.hand_in(*self.all_files())
        self.says(f"of {len(BIDS)} seats {len(BIDS)} can be taken", "sell-take")
        self.browser.click("#sell-take-run")
        return self.keep()

    def prove(self):
        self.browser.click("#sell-prove-run")
        self.keep()
        return self.save("board")

    def draw_coin(self):
        """The parts and shares of the auditors, and the coin."""
        shares = []
        for auditor in range(1, self.auditors + 1):
            words = (self.id, auditor, LANES, self.made.seed(), f"share-{auditor}")
            self.parts.append(self.program("coin-part", *words).text.replace(" commit ", " "))
            shares.append(self.bytes(f"share-{auditor}").decode().split("\n")[3])
        self.put("parts", "".join(self.parts))

    def answer(self, bits="0110"):
        if self.auditors:
            self.draw_coin()
            shares = [self.path(f"share-{auditor + 1}") for auditor in range(self.auditors)]
            self.browser.write("#sell-draw-parts", "".join(self.parts))
            self.choose_shares(*shares)
        else:
            self.browser.write("#sell-draw-bits", bits)
        self.browser.click("#sell-draw-run")
        self.keep()
        self.save("challenge")
        return self.save("reply")
