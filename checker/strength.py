"""How strong a proof is: how often a wrong outcome passes, by the number of lanes. Every text that
tells people of an outcome, or of the terms of an auction, ends with this sentence."""
FEW = 20  # with fewer lanes a wrong outcome passes too often to rely on the proof


def tries(lanes):
    """How many tries a wrong outcome takes to pass once, at least: it can answer one challenge of
    the 2^lanes."""
    return 2**lanes


def strength_sentence(lanes):
    """The strength of a proof of so many lanes. Below FEW lanes it is a warning, which has to end
    a text."""
    often = f"at most once in {tries(lanes):,} tries"
    counted = "1 lane" if lanes == 1 else f"{lanes} lanes"
    if lanes < FEW:
        return (f"WARNING: with only {counted}, a wrong outcome passes {often}, even if nobody "
                f"foresaw the challenge. That is too often to rely on: use at least {FEW} lanes.")
    return f"With {counted}, a wrong outcome passes {often}, if nobody foresaw the challenge."
