"""The tab Sell: whole auctions, with which the program goes on, and the audit of what is public."""
import io
import os
import shutil
import subprocess
import sys
import tarfile

from .announced import take
from .kinds import CALLED, given
from .made import Said
from .seller import BIDS, LANES, NAMES, Seller

HERE = os.path.dirname(os.path.abspath(__file__))
# What belongs in the places of the draw
DRAWN = {
    "sell-draw-shares": "share-1",
    "sell-draw-coin": "coin",
    "sell-draw-challenge": "challenge-0110",
}
# How what is handed in of each seat is named
FILES = (("seal", ""), ("secret", ".cms"))
CHECKER = os.path.join(HERE, "..", "..", "checker", "check.py")


def goes_on(seller, house, *wanted):
    """The built program does the script of a house, and makes the same files, byte for byte."""
    place = seller.unpack(house, "elsewhere")
    said = seller.made.run("ceremony", "script", folder=place)
    assert said.status == 0 and said.text.endswith("\nend\n"), said
    for name in wanted:
        with open(os.path.join(place, name), "rb") as file:
            assert file.read() == seller.bytes(name), name
    return place


def audited(seller, *options):
    """What the audit with Python alone says of the archive that the page hands out."""
    seller.browser.click("#sell-pack-run")
    seller.says("The archive has all that is public", "sell-pack")
    [name] = seller.links("sell-pack")
    data = seller.save(name, "sell-pack")
    folder = seller.path("public")
    with tarfile.open(fileobj=io.BytesIO(data)) as archive:
        archive.extractall(folder, filter="data")
    assert not [name for name in os.listdir(folder) if "secret" in name], os.listdir(folder)
    digest = seller.made.digest(os.path.join(seller.folder, "board"))
    words = [sys.executable, CHECKER, "audit", "announcement", digest, ".", *options]
    done = subprocess.run(words, cwd=folder, stdout=subprocess.PIPE, check=False)
    return Said(done.returncode, done.stdout.decode())


def auction_is_sold(desk):
    """From the announcement to the archive; each house goes on by the program's own `ceremony`."""
    seller = Seller(desk).open()
    assert seller.forms() == ["terms"], seller.forms()
    lines = seller.announce()
    assert lines[5:9] == ["reserve none", "unit EUR", "decimals 2", "auditors 0"], lines
    assert lines[9:14] == [
        "seals 2096-12-01T12:00:00Z",
        "secrets 2096-12-02T12:00:00Z",
        "board none",
        "draw 2096-12-04T12:00:00Z",
        "reply 2096-12-05T12:00:00Z",
    ], lines
    assert lines[17:] == [*(f"seat {seat} {name}" for seat, name in NAMES.items()), "end"], lines
    assert seller.forms() == ["take"], seller.forms()
    shutil.rmtree(goes_on(seller, seller.take()))
    assert seller.forms() == ["prove"], seller.forms()
    seller.prove()
    assert "Seat 300 wins and pays 33.50 EUR." in desk.browser.text("#sell-work")
    shutil.rmtree(goes_on(seller, seller.houses[-1], "board"))
    assert seller.forms() == ["draw"], seller.forms()
    seller.answer()
    shutil.rmtree(goes_on(seller, seller.houses[-1], "board", "reply"))
    assert seller.forms() == ["draw", "pack"], seller.forms()
    said = audited(seller, "--secret", seller.path("secret-9"), "--bits", "0110")
    assert said.status == 0 and "Seat 300 wins and pays 33.50 EUR." in said.text, said


def auditors_draw(desk):
    """Three auditors draw; nothing is answered of parts or shares that aren't theirs."""
    seller = Seller(desk, auditors=3).open()
    seller.announce(reserve="34")
    seller.take()
    seller.prove()
    assert "Seat 300 wins and pays 34.00 EUR." in desk.browser.text("#sell-work")
    seller.draw_coin()
    shares = [seller.path(f"share-{auditor}") for auditor in (1, 2, 3)]
    other = desk.made.path("share-2")
    cases = [
        (seller.parts[:2], shares[:2], "has 3 auditors, and 2 parts are typed"),
        (seller.parts, shares[:2], "There is no share of auditor 3"),
        (seller.parts, [shares[0], other, shares[2]], "several auctions"),
        (seller.parts[:1] + seller.parts[:1], shares, "Line 2 of the parts"),
    ]
    for parts, chosen, words in cases:
        desk.browser.write("#sell-draw-parts", "".join(parts))
        seller.choose_shares(*chosen)
        desk.browser.click("#sell-draw-run")
        seller.says(words, "sell-draw")
    turned = seller.bytes("share-2").decode()
    bits = turned.split("\n")[3].split(" ")[2]
    other = ("1" if bits[0] == "0" else "0") + bits[1:]
    seller.put("share-2-turned", turned.replace(f" {bits}\n", f" {other}\n"))
    desk.browser.write("#sell-draw-parts", "".join(seller.parts))
    seller.choose_shares(shares[0], seller.path("share-2-turned"), shares[2])
    desk.browser.click("#sell-draw-run")
    seller.says("the share of auditor 2 doesn't open the part of auditor 2", "sell-draw")
    seller.choose_shares(*shares)
    desk.browser.click("#sell-draw-run")
    seller.keep()
    seller.save("reply")
    place = goes_on(seller, seller.houses[-1], "board", "reply")
    assert os.path.exists(os.path.join(place, "coin"))
    seller.made.must("coin-join", "coin", "joined", folder=place)
    with open(os.path.join(place, "joined"), "rb") as joined:
        with open(os.path.join(place, "challenge"), "rb") as challenge:
            assert joined.read() == challenge.read()
    said = audited(seller, "--parts", seller.path("parts"))
    assert said.status == 0, said


def intake_is_told(desk):
    """Each refusal stands at its seat; nothing is taken before all is right."""
    seller = Seller(desk).open()
    seller.announce()
    seller.seal_all()
    seller.seal(7, 2100, "other")
    seller.seal(8, 2100, "8")
    seller.seal(7, 2100, "elsewhere", auction="f" * 32)
    seller.seal(9, 99999, "high", width=20)
    seller.seal(9, 100, "short", lanes=3)
    seller.put("cut", seller.bytes("secret-7")[:-40])
    seller.put("long", b"x" * 70_000)
    seller.put("empty", b"")
    good = "Taken on trial. Its seal is "
    cases = [
        (["secret-7"], 7, "there is no file seal-7"),
        (["seal-7", "secret-other"], 7, "the secret doesn't open the seal: ask Ann"),
        (["seal-7", "secret-9"], 7, "the secret is of another seat: ask Ann for its own"),
        (["seal-elsewhere", "secret-elsewhere"], 7, "the seal is of another auction: ask Ann"),
        (["seal-7", "secret-elsewhere"], 7, "the secret is of another auction: ask Ann"),
        (["seal-7", "cut"], 7, "the secret can't be read: ask Ann"),
        (["cut", "secret-7"], 7, "the seal can't be read: get it from the public place"),
        (["seal-9", "secret-7"], 7, "seal-7 is a seal of seat 9: get the right one"),
        (["seal-7", "long"], 7, "one of the files is too long"),
        (["empty", "secret-7"], 7, "the seal can't be read"),
        (["seal-high", "secret-high"], 9, "the bid is above the announced limit"),
        (["seal-short", "secret-short"], 9, "the seal has another number of lanes: ask Ben & Co"),
    ]
    seller.hand_in(*seller.all_files([9, 300]))
    seller.says("of 3 seats 2 can be taken", "sell-take")
    for handed, seat, words in cases:
        folder = seller.path("given")
        shutil.rmtree(folder, ignore_errors=True)
        os.mkdir(folder)
        for name in seller.all_files({7, 9} - {seat}):
            shutil.copy(seller.path(name), os.path.join(folder, name))
        kinds = ["seal", "secret"] if len(handed) == 2 else [handed[0].split("-")[0]]
        for kind, name in zip(kinds, handed):
            shutil.copy(seller.path(name), os.path.join(folder, f"{kind}-{seat}"))
        names = sorted(os.path.join(folder, name) for name in os.listdir(folder))
        desk.browser.choose("#sell-take-files", *names)
        seller.says("of 3 seats 2 can be taken", "sell-take")
        for row, told in seller.rows():
            wanted = words if row == f"Seat {seat}" else good
            assert wanted in told, (handed, row, told, wanted)
        desk.browser.click("#sell-take-run")
        seller.says(f"Nothing was taken: of 3 seats 1 can't be, {seat}.", "sell-take")
        assert seller.forms() == ["take"]
    seller.hand_in(*seller.all_files([9]))
    seller.says("3 can be taken", "sell-take")
    seller.hand_in("seal-8")
    seller.says("Some files are for none", "sell-take")
    assert "no seat 8 was announced" in desk.browser.text("#sell-take-work")
    desk.browser.click("#sell-take-run")
    house = seller.keep()
    place = seller.unpack(house, "taken")
    with open(os.path.join(place, "script"), encoding="ascii") as file:
        lines = [line.split(" ")[2] for line in file if line.startswith("submit")]
    assert lines == ["seal-7", "seal-9", "seal-300"], lines


def secrets_come_encrypted(desk):
    """The page makes a key, which the house keeps; bidders encrypt to it in the page."""
    seller = Seller(desk, "locked").open()
    lines = seller.announce(encrypted=True)
    assert lines[14].startswith("key cms "), lines
    desk.browser.click("#tab-bid")
    seller.seal_all()
    for seat, bid in BIDS.items():
        shown = desk.seal(seat_of=seat, bid=f"{bid // 100}.{bid % 100:02}")
        assert shown.mood == "good", shown
        for name in (f"secret-{seat}", f"seal-{seat}", f"secret-{seat}.cms"):
            seller.save(name, "keep")
    desk.browser.click("#tab-sell")
    seller.put("changed", flipped(seller.bytes("secret-9.cms")))
    shutil.copy(seller.path("secret-9.cms"), seller.path("right"))
    shutil.copy(seller.path("changed"), seller.path("secret-9.cms"))
    seller.hand_in(*[f"{kind}-{seat}{end}" for seat in BIDS for kind, end in FILES])
    seller.says("of 3 seats 2 can be taken", "sell-take")
    told = dict(seller.rows())["Seat 9"]
    assert "secret-9 is encrypted, and the key of this house doesn't open it: ask Ben & Co" in told
    shutil.copy(seller.path("right"), seller.path("secret-9.cms"))
    seller.hand_in("secret-9.cms")
    seller.says("of 3 seats 3 can be taken", "sell-take")
    desk.browser.click("#sell-take-run")
    house = seller.keep()
    place = seller.unpack(house, "unpacked")
    for seat in BIDS:
        with open(os.path.join(place, f"secret-{seat}"), "rb") as file:
            assert file.read() == seller.bytes(f"secret-{seat}"), seat
        words = ["openssl", "cms", "-decrypt", "-inform", "DER", "-binary", "-inkey", "key.pem"]
        words += ["-in", seller.path(f"secret-{seat}.cms")]
        opened = subprocess.run(words, cwd=place, stdout=subprocess.PIPE, check=True).stdout
        assert opened == seller.bytes(f"secret-{seat}"), seat
    shutil.rmtree(place)
    seller.prove()
    assert "Seat 300 wins and pays 33.50 EUR." in desk.browser.text("#sell-work")
    shutil.rmtree(goes_on(seller, seller.houses[-1], "board"))
    seller.answer()
    said = audited(seller, "--secret", seller.path("secret-9"), "--bits", "0110")
    assert said.status == 0, said
    assert "key.pem" not in os.listdir(seller.path("public"))


def flipped(data):
    """The same bytes with one of them changed."""
    return data[:-30] + bytes([data[-30] ^ 1]) + data[-29:]


def seat_is_left_out(desk):
    """A seat that is left out isn't on the board, and the audit says so by its option."""
    seller = Seller(desk).open()
    seller.announce()
    seller.seal_all()
    seller.hand_in(*seller.all_files([7, 300]))
    seller.says("of 3 seats 2 can be taken", "sell-take")
    desk.browser.click("#sell-left-9")
    desk.browser.click("#sell-take-run")
    seller.keep()
    seller.prove()
    assert "Seat 300 wins and pays 20.00 EUR." in desk.browser.text("#sell-work")
    seller.answer("1" * LANES)
    said = audited(seller, "--left-out", "9", "--bits", "1" * LANES)
    assert said.status == 0, said


def other_files_are_told(desk):
    """Every kind of file in each of the seller's places, and what is said of it."""
    seller = Seller(desk, "others").open()
    for name, called in CALLED.items():
        desk.browser.choose("#sell-house", desk.made.path(name))
        wanted = f"You chose another file: {called}"
        seller.says("It is no house" if name in ("noise", "house") else wanted)
    seller.announce()
    for name, called in CALLED.items():
        if name in ("seal-7", "other-seal-7", "secret-7"):
            continue
        desk.browser.choose("#sell-take-files", desk.made.path(name))
        desk.browser.wait(
            "return document.getElementById('sell-take-work').textContent.includes(arguments[0])",
            f"{name}: {called}",
        )
        said = desk.browser.text("#sell-take-work")
        assert said.endswith("; here seals and secrets belong."), (name, said)
    seller.take()
    seller.prove()
    cases = [[place, name] for place in DRAWN for name in CALLED]
    for (place, name), (said, mood) in zip(cases, given(desk, cases, False)):
        own = name == DRAWN[place]
        assert ("You chose another file: " in said) != own, (place, name, said)
        assert CALLED[name][2:] in said and (own or mood == "told odd"), (place, name, said, mood)


def terms_are_asked(desk):
    """Each field that isn't of its form is named; an announcement as a file is taken as it is."""
    seller = Seller(desk).open()
    cases = dict(
        unit="",
        decimals="10",
        highest="1e3",
        reserve="200",
        seats="7 Ann\n7 Ben",
        place="",
        lanes="65",
        auditors="17",
        secrets="2096-11-30 12:00",
        draw="2096-02-30 12:00",
        key="",
    )
    for name, value in cases.items():
        seller.fill_terms(**{name: value})
        desk.browser.click("#sell-terms-run")
        seller.says("Something above isn't of its form", "sell-terms")
        fault = desk.browser.text(f"#sell-terms-{name}-fault")
        assert fault and fault.startswith("This has to be "), (name, fault)
    seller.fill_terms()
    said = "vickrey-announcement 1\nauction {}\nkind {}\nwidth 6\nlanes 4\nreserve none\nunit EUR\n"
    rest = "decimals 0\nauditors 0\n" + "".join(
        f"{name} none\n" for name in ("seals", "secrets", "board", "draw", "reply", "key")
    )
    rest += "place here\nseats 2\nseat 1 Ann\nseat 2 Ben\nend\n"
    kinds = {"units": "uniform 2", "good": "vickrey"}
    for name, kind in kinds.items():
        seller.put(name, said.format("0" * 32, kind) + rest)
    take(desk, seller.path("units"))
    desk.browser.click("#sell-terms-run")
    seller.says("No house takes an auction of this kind", "sell-terms")
    desk.browser.click("#announced-away")
    take(desk, seller.path("good"))
    desk.browser.click("#sell-terms-run")
    seller.keep()
    assert seller.save("announcement") == seller.bytes("good")


SELL = [
    auction_is_sold,
    auditors_draw,
    intake_is_told,
    secrets_come_encrypted,
    seat_is_left_out,
    other_files_are_told,
    terms_are_asked,
]
