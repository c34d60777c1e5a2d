"""What each refusal number says."""

EXPLANATIONS = {
    1: "The record or the curve set that was handed in is impossible: no hours can have given these numbers, or a curve value is out of its range.",
    2: "The text is too long: a snapshot may have 1048576 bytes, an hour 65536, a curve text 4096.",
    3: "A line that is due is absent, or lacks its line feed (byte 10).",
    4: "The line does not begin with the key that is due and `=`.",
    5: "The line has no value after its `=`.",
    6: "The value is badly written: no plain whole number, no id, or none of the listed words.",
    7: "The number is outside its range.",
    8: "The id already stands further above in this snapshot.",
    9: "Bytes follow the last line that is due.",
    10: "The hour's group already has 1000 hours.",
    11: "The hour's reserve error lies beyond 20000000 kW in size.",
    12: "A group has fewer than 2 hours.",
    13: "A group's errors have spread 0.",
    14: "The buffer is shorter than the text or the page, or the rows are fewer than the resources.",
    15: "The number is marked suspect, on a unit where that turns the snapshot back: one that enters a sum, or may enter one.",
}

_OF_A_GROUP = (12, 13)


class Refused(Exception):
    """An operation refused its input, and changed nothing.

    Attributes:
        number: the refusal's number, 1 to 15.
        line: the line it concerns, the first line of the text, or of the text that would be written, being 1; for 12
            and 13 the group, 0 to 23; else 0.
        explanation: a sentence in plain words.
    """

    def __init__(self, number: int, line: int) -> None:
        self.number = number
        self.line = line
        self.explanation = EXPLANATIONS.get(number, "Refused.")
        super().__init__(number, line)

    def __str__(self) -> str:
        if self.number in _OF_A_GROUP:
            place = f", group {self.line}"
        elif self.line:
            place = f", line {self.line}"
        else:
            place = ""
        return f"refused by {self.number}{place}: {self.explanation}"


def check(refusal) -> None:
    """Raises what a call refused."""
    if refusal.number:
        raise Refused(refusal.number, refusal.line)
