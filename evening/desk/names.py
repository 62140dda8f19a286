"""Names as the host takes them: 1 to 20 letters A to Z, digits, _ and -."""
import re, unicodedata

LONGEST = 20


def pairs(letters, spellings):
    return dict(zip(letters, spellings.split(" "), strict=True))


# What taking off the accents does not bring to A to Z. Two blanks in a row: the letter is not written.
SPELLINGS = (pairs("ßæœøđðþłıŋħ", "ss ae oe o d d th l i n h")
             | pairs("абвгґдеёєжзиіїйклмнопрстуфхцчшщъыьэюя",
                     "a b v g g d e yo ye zh z i i yi y k l m n o p r s t u f kh ts ch sh shch  y  e yu ya")
             | pairs("ђјљњћџўќѓ", "dj j lj nj c dz u k g")
             | pairs("αβγδεζηθικλμνξοπρσςτυφχψω", "a v g d e z i th i k l m n x o p r s s t y f ch ps o"))


def letters_of(c):
    """One character in allowed letters: spelled, without its accents, nothing for a mark, or _ between two words."""
    spelling = SPELLINGS.get(c.lower())
    if spelling is not None:
        return spelling if c == c.lower() else spelling.capitalize()
    bare = "".join(b for b in unicodedata.normalize("NFKD", c) if not unicodedata.combining(b))
    if len(bare) == 1 and bare != c:
        return letters_of(bare)
    if re.fullmatch(r"[A-Za-z0-9_-]+", bare):
        return bare
    return "" if bare in ("", "'", "’", "`", ".") or bare[0].isalpha() else "_"


def allowed(name):
    """The name in the allowed form, or an empty text where it has no letter or digit that can be written so."""
    text = "".join(letters_of(c) for c in unicodedata.normalize("NFC", name))
    text = re.sub(r"_?-_?", "-", re.sub(r"_+", "_", text)).strip("_-")
    return text[:LONGEST].rstrip("_-")


def apart(name, taken):
    """The name, or where it is taken already the name with the first free number behind it."""
    if name not in taken:
        return name
    number = 2
    while (other := name[:LONGEST - 1 - len(str(number))] + f"_{number}") in taken:
        number += 1
    return other
