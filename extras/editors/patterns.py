"""What the files of each editor share: marker lines, a symbol's text, the list of words."""

MARKS = ["%%", "%% tables", "%% trace", "%% next"]
SYMBOL = r"[A-Za-z][A-Za-z0-9_.@:-]*"


def words_of(path):
    """The words of each line of the list, by the line's first word."""
    with open(path, encoding="utf-8") as given:
        rows = [line.split() for line in given if not line.startswith("#")]
    return {name: words for name, *words in rows}
