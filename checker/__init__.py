"""A second checker, and all that a bidder or an auditor needs to take part, for those who would
rather not trust one program. `python3 checker/check.py --help`, or `python3 -m checker --help`,
lists its commands.

It is written from docs/FORMATS.md alone, and needs nothing but Python 3.8 or newer. Nothing of it
is proved. Its modules:

    fields, files         what may stand in a line; how files are read and written
    commitments, draws    digests that fix numbers; what is drawn from a seed
    circuits, published   the circuits; boards and claim files
    verdict               `verify` and `claim-verify`
    seals, coins          seals and secrets; challenges
    announcement, amounts the file that everybody starts from, and amounts in its unit
    announcing, bidding   a new announcement; a bid at a seat of one
    asking, progress      what people are asked; how far long work is
    reporting, sentences  what files say, for people
    readings, kinds       files that are opened once; what a file is
    gathering, heads      the files of an audit; what their first lines say
    audit, auditing       the audit of an auction; its words
    shown, strength       text of others, and how strong a proof is, for people
    intake                how an auctioneer takes seals and secrets
    commands, words       what each command is called, and which words it has
"""
