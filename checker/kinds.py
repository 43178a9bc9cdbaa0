"""What a file is, by how it begins. That somebody has another file at hand says nothing of an
auction, so nothing here is a verdict."""
import re
from collections import namedtuple

START = 600  # bytes that are enough to know a file by

# The kind is a word for the code, what the file is for people. A file that was changed on the way
# is of its kind, and has other line ends, or a mark of an editor before its first line.
Kind = namedtuple("Kind", "kind what is_changed")

OURS = {
    "announcement": "an announcement", "board": "a board", "claim": "a claim file",
    "challenge": "a challenge", "reply": "a reply", "seal": "a seal",
    "secret": "a secret, which must never be public", "share": "a share of an auditor",
    "coin": "a coin", "script": "a script of commands for the auctioneer",
}
# The version is one digit, so that a later one is known too
FIRST_LINE = re.compile(rb"vickrey-([a-z]{4,12}) [1-9]\r?\n")
PARTS = re.compile(rb"part [1-9][0-9]? (commit )?[0-9a-f]{64}\r?\n")
MARK = b"\xef\xbb\xbf"  # that some editors put before a text

NEVER_PUBLIC = {
    "secret": OURS["secret"], "store": "a store with all bids, which must never be public",
    "house": "a house with all bids, which must never be public",
    "key": "a private key, which must never be public",
}
# Files that people have beside those of an auction, by how they begin
OTHERS = [
    (rb"SQLite format 3\0", "store", NEVER_PUBLIC["store"]),
    # The archive of the page's house: a tar file, whose first file is the house
    (rb"house\0[\s\S]{251}ustar\0", "house", NEVER_PUBLIC["house"]),
    (rb"-----BEGIN ([A-Z]+ )?PRIVATE KEY|(#[^\n]*\n){0,4}AGE-SECRET-KEY-", "key",
     NEVER_PUBLIC["key"]),
    (rb"-----BEGIN PUBLIC KEY|-----BEGIN CERTIFICATE", "public key", "a public key"),
    (rb"-----BEGIN (SSH|PGP) SIGNATURE|untrusted comment: ", "signature", "a signature"),
    (rb"age-encryption\.org/|-----BEGIN (AGE|PGP|CMS|PKCS7)|MIME-Version: ", "locked",
     "an encrypted file"),
    (rb"0[\s\S]{1,4}\x06\x0b\x2a\x86H\x86\xf7\r\x01\x09\x10\x01\x17"
     rb"|0[\s\S]{1,4}\x06\x09\x2a\x86H\x86\xf7\r\x01\x07\x03", "locked", "an encrypted file"),
    (rb"announcement\0[\s\S]{244}ustar\0", "packed", "an archive of an auction"),
    (rb"PK\x03\x04|\x1f\x8b|7z\xbc\xaf|\xfd7zXZ|[\s\S]{257}ustar", "packed", "a packed file"),
    (rb"%PDF-", "document", "a document (PDF)"),
    (rb"\x89PNG|\xff\xd8\xff|GIF8", "picture", "a picture"),
    (rb"(?i)\s*<(!doctype|html)", "page", "a web page"),
    (rb"\xff\xfe|\xfe\xff", "text", "a text in UTF-16, as some editors save it"),
    (rb"\Z", "empty", "an empty file"),
]


def kind_of(start):
    """What the file is that begins so."""
    text = start[len(MARK):] if start.startswith(MARK) else start
    is_changed = text != start or b"\r\n" in text[:START]
    found = FIRST_LINE.match(text)
    name = found[1].decode() if found else ""
    if name in OURS:
        return Kind(name, OURS[name], is_changed)
    if PARTS.match(text):
        return Kind("parts", "a list of auditors' parts", is_changed)
    for form, kind, what in OTHERS:
        if re.match(form, start):
            return Kind(kind, what, False)
    return Kind("other", "a file that is none of this program's", False)


def misplaced(start, wanted):
    """Why a file that begins so can't be used where these kinds are wanted; None where it can."""
    found = kind_of(start)
    if found.kind not in wanted:
        return f"this is {found.what}"
    if found.is_changed:
        return (f"this is {found.what} that was changed on the way, as mail programs and editors "
                "do (its lines end with CR LF, or a byte order mark stands before it): get it "
                "again, byte for byte")
    return None
