"""The inputs of `bench/run --pieces`, which asks what reading in pieces costs beside reading: the texts of kinds.py, each once."""
from kinds import OVER_BYTES, kinds

ASKED = 1.5  # at most so many times as long as reading


def texts():
    """Names and texts. The text over the limit is left out: reading refuses it by its length alone, which a reader in pieces isn't told."""
    seen = set()
    for name, text, _, _ in kinds():
        if len(text) < OVER_BYTES and text not in seen:
            seen.add(text)
            yield name, text
