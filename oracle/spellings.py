#!/usr/bin/env python3
"""The one spelling of a frame line, from the words of documents 01 and 02 (vii): a line is taken apart to numbers, and the numbers are written again.

usage: spellings.py answer                     reads lines and writes the answer of the words to each
       spellings.py stored IN EXP              every answer in the file EXP must be that of the words to its line in the file IN, or one of several, joined by ` / `, must be
       spellings.py check PROGRAM LINES SEED   draws LINES lines and holds what PROGRAM answers to the words

"The meaning of a line is its volume, its two float bit patterns or the dash, and its samples. A line of three fields means an empty sample field."

What is drawn for `check` starts from a meaning. Good lines spell it with capitals and blanks, and a line often means the same as the good one before it, or something that is as close as can be: a bit, the sign of a
zero, the dash for bits of 0, a sample of 0 more. Wrong ones have a single fault, most of them behind capitals and blanks that are forgiven. A line is known to be good or wrong before it is read, so the reader here is
tested too. PROGRAM gets the lines in pieces, on standard input or in several named files, with and without the last line feed. Each answer must be that of the words; over all lines of a piece, equal meanings must
have equal bytes, and equal bytes equal meanings; and the answers that are no refusals, read again, must stay as they are. Prints how many lines of each kind are taken and refused, and each line that differs; exits
with 1 if one does.
"""
import os
import random
import subprocess
import sys
import tempfile
from collections import Counter, namedtuple

LONGEST = 2000
REFUSED = b"! 12"

# ---- the words

Meaning = namedtuple("Meaning", "volume probability level samples")  # the level is its bits or DASH, the samples are signed
DASH = "-"
VALUES = {ord(digit): value for digits in ("0123456789abcdef", "0123456789ABCDEF") for value, digit in enumerate(digits)}


def lines_of(text):
    """Lines end with a line feed, which the last may lack; a final line feed starts no line."""
    lines = text.split(b"\n")
    return lines if lines[-1] else lines[:-1]


def numbers(field, digits):
    """The numbers of a field in which each has so many digits, or None."""
    values = [VALUES.get(byte) for byte in field]
    if None in values or len(values) % digits:
        return None
    whole = [0] * (len(values) // digits)
    for place in range(digits):
        whole = [16 * high + low for high, low in zip(whole, values[place::digits])]
    return whole


def number(field, digits):
    """The one number of a field, or None."""
    found = numbers(field, digits)
    return found[0] if found and len(found) == 1 else None


def signed(word):
    """Two's complement of 16 bits."""
    return word - 65536 if word >= 32768 else word


def read(line):
    """What a line means, or None if it is malformed. Its length is that of the line as it came."""
    fields = [field for field in line.split(b" ") if field]
    if len(line) > LONGEST or len(fields) not in (3, 4):
        return None
    volume, probability = number(fields[0], 2), number(fields[1], 8)
    level = DASH if fields[2] == b"-" else number(fields[2], 8)
    samples = numbers(fields[3], 4) if len(fields) == 4 else []
    if None in (volume, probability, level, samples):
        return None
    return Meaning(volume, probability, level, tuple(map(signed, samples)))


def written(meaning):
    """The four fields of the base spelling."""
    level = DASH if meaning.level == DASH else f"{meaning.level:08x}"
    return [f"{meaning.volume:02x}", f"{meaning.probability:08x}", level, "".join(f"{sample % 65536:04x}" for sample in meaning.samples)]


def base(meaning):
    """One blank between the fields, also before samples that are none."""
    return " ".join(written(meaning)).encode()


def answer(line):
    meaning = read(line)
    return REFUSED if meaning is None else base(meaning)


# ---- meanings that are drawn

# zeros, ones, infinite, and not-a-numbers of either sign, quiet and signalling
FLOATS = [0x00000000, 0x80000000, 0x3F800000, 0xBF800000, 0x7F800000, 0xFF800000, 0x7FC00000, 0x7FC00001, 0xFFC00000, 0xFFC00001, 0x7F800001, 0xFFFFFFFF, 0x00000001, 0xABCDEF12]
SAMPLES = [0, 1, -1, 32767, -32768, -32767, 0x0ABC, -0x5433]
COUNTS = [0, 0, 1, 1, 2, 3, 4, 8, 20, 160]
MANY = [479, 480, 481, 490, 493, 494, 495, 496]


def some_bits(rnd):
    return rnd.choice(FLOATS) if rnd.random() < 0.5 else rnd.getrandbits(32)


def some_samples(rnd, count):
    return tuple(rnd.choice(SAMPLES) if rnd.random() < 0.2 else rnd.getrandbits(16) - 32768 for _ in range(count))


def some_meaning(rnd):
    level = DASH if rnd.random() < 0.4 else some_bits(rnd)
    return Meaning(rnd.randrange(256), some_bits(rnd), level, some_samples(rnd, rnd.choice(COUNTS)))


def close_samples(rnd, samples):
    """A sample of 0 more, or the last one less, or a bit of one turned."""
    if not samples or rnd.random() < 0.3:
        return samples + (0,)
    if rnd.random() < 0.3:
        return samples[:-1]
    k = rnd.randrange(len(samples))
    return samples[:k] + (signed(samples[k] % 65536 ^ 1 << rnd.randrange(16)),) + samples[k + 1:]


def close_level(rnd, level):
    if level == DASH:
        return 0
    return DASH if rnd.random() < 0.2 else level ^ rnd.choice([1, 1 << 31, 1 << rnd.randrange(32)])


def close_to(rnd, meaning):
    """Another meaning, in one place."""
    place = rnd.randrange(4)
    if place == 0:
        return meaning._replace(volume=meaning.volume ^ 1 << rnd.randrange(8))
    if place == 1:
        return meaning._replace(probability=meaning.probability ^ rnd.choice([1, 1 << 31, 1 << rnd.randrange(32)]))
    if place == 2:
        return meaning._replace(level=close_level(rnd, meaning.level))
    return meaning._replace(samples=close_samples(rnd, meaning.samples))


# ---- spellings that are drawn: text whose characters are bytes

def capitals(rnd, field):
    way = rnd.randrange(4)
    if way == 3:
        return "".join(rnd.choice((letter, letter.upper())) for letter in field)
    return field.upper() if way == 2 else field


def parted(rnd, fields, extra):
    """The fields with a blank between them and so many more, at all places or at one."""
    gaps = [0] + [1] * (len(fields) - 1) + [0]
    if rnd.random() < 0.3:
        gaps[rnd.randrange(len(gaps))] += extra
    else:
        cuts = [0, *sorted(rnd.randint(0, extra) for _ in gaps[1:]), extra]
        gaps = [gap + high - low for gap, low, high in zip(gaps, cuts, cuts[1:])]
    return "".join(" " * gap + field for gap, field in zip(gaps, [*fields, ""]))


def typed(rnd, fields):
    """With capitals and blanks that are forgiven."""
    return parted(rnd, [capitals(rnd, field) for field in fields], rnd.choice([0, 0, 1, 2, 3, 5, 12, 40]))


def of_length(rnd, meaning, length):
    """A line of so many characters, of blanks or of samples, and what it would mean."""
    fixed = len(base(meaning._replace(samples=())))
    most = (length - fixed) // 4
    count = rnd.choice([0, rnd.randint(0, most), most - 1, most, most])
    meaning = meaning._replace(samples=some_samples(rnd, count))
    return parted(rnd, [capitals(rnd, field) for field in written(meaning)], length - fixed - 4 * count), meaning


# ---- good lines: each with what it means

def good_base(rnd, meaning):
    return base(meaning).decode(), meaning


def good_typed(rnd, meaning):
    return typed(rnd, written(meaning)), meaning


def good_three_fields(rnd, meaning):
    return typed(rnd, written(meaning)[:3]), meaning._replace(samples=())


def good_many_samples(rnd, meaning):
    meaning = meaning._replace(samples=some_samples(rnd, rnd.choice(MANY)))
    return parted(rnd, [capitals(rnd, field) for field in written(meaning)], rnd.choice([0, 0, 1, 2])), meaning


def good_to_2000(rnd, meaning):
    return of_length(rnd, meaning, rnd.choice([*range(1990, 2001), 2000, 2000]))


# each kind with how many of 110 lines are of it, here and below
GOOD = {good_base: 10, good_typed: 30, good_three_fields: 8, good_many_samples: 2, good_to_2000: 4}

# ---- wrong lines

# bytes that stand next to the digits and their letters, other letters, and what a reader of numbers might take: a sign, a prefix, a separator
BESIDE = "/:@G`g[{"
OTHERS = "HIJKLMNOPQRSTUVWXYZhijklmnopqrstuvwxyz\\]^|}~_+.,;#'\"!-"
CONTROLS = "".join(chr(byte) for byte in [*range(1, 9), *range(11, 13), *range(14, 32), 127])
ABOVE = "".join(map(chr, range(128, 256))) + "\xa0" * 32  # of these the no-break blank more often


def in_gap(rnd, line, byte):
    """A byte in place of a blank or beside one, or at an end."""
    places = [k for k, letter in enumerate(line) if letter == " "]
    k = rnd.choice([0, len(line), *places])
    return line[:k] + byte + line[k + rnd.randrange(2):] if k in places else line[:k] + byte + line[k:]


def in_field(rnd, line, byte):
    """A byte in place of a digit: all fields keep their lengths."""
    k = rnd.choice([k for k, letter in enumerate(line) if letter not in " -"])
    return line[:k] + byte + line[k + 1:]


def anywhere(rnd, line, byte):
    return rnd.choice((in_gap, in_field))(rnd, line, byte)


def wrong_tab(rnd, fields):
    return in_gap(rnd, typed(rnd, fields), "\t")


def wrong_carriage_return(rnd, fields):
    line = typed(rnd, fields)
    return line + "\r" if rnd.random() < 0.5 else in_gap(rnd, line, "\r")


def wrong_control(rnd, fields):
    return anywhere(rnd, typed(rnd, fields), rnd.choice(CONTROLS))


def wrong_byte_0(rnd, fields):
    return anywhere(rnd, typed(rnd, fields), "\0")


def wrong_above_127(rnd, fields):
    return anywhere(rnd, typed(rnd, fields), rnd.choice(ABOVE))


def wrong_beside_digits(rnd, fields):
    return in_field(rnd, typed(rnd, fields), rnd.choice(BESIDE))


def wrong_letter(rnd, fields):
    return in_field(rnd, typed(rnd, fields), rnd.choice(OTHERS))


def wrong_blank_inside(rnd, fields):
    """In the samples, mostly, where a fifth field comes of it; elsewhere two fields, the first of them too short."""
    fields = [*fields[:3], fields[3] or "0000"]
    k = rnd.choice([0, 1, 3, 3, 3, 3])
    cut = rnd.choice([at for at in range(1, len(fields[k])) if at % 4 == 0] or [1]) if rnd.random() < 0.5 else rnd.randrange(1, len(fields[k]))
    return typed(rnd, [*fields[:k], fields[k][:cut], fields[k][cut:], *fields[k + 1:]])


def wrong_no_blank(rnd, fields):
    fields = [field for field in fields if field]
    k = rnd.randrange(1, len(fields))
    return typed(rnd, [*fields[:k - 1], fields[k - 1] + fields[k], *fields[k + 1:]])


def wrong_two_fields(rnd, fields):
    return typed(rnd, fields[:rnd.choice([1, 2, 2, 2])])


def wrong_five_fields(rnd, fields):
    fields = [*fields[:3], fields[3] or "0000"]
    return typed(rnd, fields + [rnd.choice(["0000", "-", "0", fields[3]]) for _ in range(rnd.choice([1, 1, 2]))])


def wrong_digits(rnd, fields):
    """A digit more or fewer in one field, or another wrong count."""
    k = rnd.randrange(4)
    count = rnd.choice([(1, 3, 4), (1, 4, 7, 9, 16), (1, 2, 4, 7, 9, 16), (1, 2, 3, 5, 6, 7, len(fields[3]) + 1, len(fields[3]) + 2, len(fields[3]) + 3)][k])
    digits = "".join(rnd.choice("0123456789abcdef") for _ in range(count))
    return typed(rnd, [*fields[:k], digits, *fields[k + 1:]])


def wrong_dash(rnd, fields):
    """A dash for another field, or a dash with something beside it."""
    k = rnd.randrange(4)
    other = DASH if k != 2 else rnd.choice(["--", "-0", "0-", "-00000000", "00000000-", "-0000000", "0000000-"])
    return typed(rnd, [*fields[:k], other, *fields[k + 1:]])


def wrong_order(rnd, fields):
    """Other fields first."""
    volume, probability, level, samples = fields
    return typed(rnd, rnd.choice([[probability, volume, level, samples], [volume, level, volume, samples], [level, volume, probability, samples]]))


def wrong_empty(rnd, fields):
    return ""


def wrong_blanks_alone(rnd, fields):
    return " " * rnd.choice([1, 1, 2, 3, 13, 14, 40, 1999, 2000, 2001])


WRONG = {wrong_tab: 4, wrong_carriage_return: 4, wrong_control: 3, wrong_byte_0: 2, wrong_above_127: 4, wrong_beside_digits: 6, wrong_letter: 5, wrong_blank_inside: 4, wrong_no_blank: 3, wrong_two_fields: 2,
         wrong_five_fields: 3, wrong_digits: 4, wrong_dash: 3, wrong_order: 2, wrong_empty: 1, wrong_blanks_alone: 1}

# ---- lines that are wrong for their length alone

def long_to_2010(rnd, meaning):
    return of_length(rnd, meaning, rnd.choice([*range(2001, 2011), 2001, 2001]))[0]


def long_of_5000(rnd, meaning):
    """And now and then longer than what a program reads at once."""
    return of_length(rnd, meaning, 200_000 if rnd.random() < 0.02 else 5000)[0]


LONG = {long_to_2010: 4, long_of_5000: 1}
KINDS = GOOD | WRONG | LONG

# ---- a program

PIECE = 2_000  # lines for one run of the program
Drawn = namedtuple("Drawn", "kind line meaning")  # None for what is to be refused


def spelled(rnd, make, meaning):
    """A line of a kind, and what it means. A good one that became too long by its blanks is to be refused."""
    if make in GOOD:
        line, meaning = make(rnd, meaning)
        return line, meaning if len(line) <= LONGEST else None
    return make(rnd, written(meaning) if make in WRONG else meaning), None


def next_meaning(rnd, meaning):
    """The same, or one that is close to it, or any."""
    way = rnd.randrange(3)
    if way == 0:
        return meaning
    return close_to(rnd, meaning) if way == 1 else some_meaning(rnd)


def some_lines(rnd, count):
    """Each of a kind, and of a meaning that comes from that of the good line before it."""
    last = some_meaning(rnd)
    for make in rnd.choices(list(KINDS), list(KINDS.values()), k=count):
        line, meaning = spelled(rnd, make, next_meaning(rnd, last))
        last = meaning or last
        yield Drawn(make.__name__.split("_", 1)[1], line.encode("latin-1"), meaning)


def as_text(rnd, lines):
    """With or without the last line feed; an empty line is none without it."""
    text = b"\n".join(lines)
    return text if not lines or lines[-1] and rnd.random() < 0.5 else text + b"\n"


def run(program, texts):
    """What a program writes: one text on standard input, several in files."""
    if len(texts) == 1:
        return subprocess.run([program], input=texts[0], stdout=subprocess.PIPE).stdout
    with tempfile.TemporaryDirectory() as folder:
        names = [os.path.join(folder, str(k)) for k in range(len(texts))]
        for name, text in zip(names, texts):
            with open(name, "wb") as f:
                f.write(text)
        return subprocess.run([program, *names], stdin=subprocess.DEVNULL, stdout=subprocess.PIPE).stdout


def answers(program, texts, count):
    """The answers to so many lines. A line too many or too few is no difference of one line, and ends the check."""
    out = run(program, texts)
    said = out.split(b"\n")
    if said.pop() or len(said) != count:
        sys.exit(f"{count} lines, and {len(said)} answers" + ", the last without its line feed" * (out[-1:] not in (b"", b"\n")))
    return said


def asked_of(program, rnd, asked):
    """The answers to a piece, half of the time from several files, of which some may be empty."""
    lines = [one.line for one in asked]
    cuts = sorted(rnd.randint(0, len(lines)) for _ in range(rnd.choice([0, 0, 0, 1, 2, 5])))
    texts = [as_text(rnd, lines[low:high]) for low, high in zip([0, *cuts], [*cuts, len(lines)])]
    return answers(program, texts, len(lines))


def faults(asked, said):
    """Each line that is answered with other bytes than those of the words, or read here to mean something else than was drawn."""
    for one, got in zip(asked, said):
        if read(one.line) != one.meaning:
            yield f"{one.kind}: {one.line!r} is read as {read(one.line)}, drawn as {one.meaning}"
        if got != answer(one.line):
            yield f"{one.kind}: {one.line!r} is answered {got!r}, by the words {answer(one.line)!r}"


def pairs(asked, said, counts):
    """Each line whose bytes are those of another meaning, or whose meaning has other bytes, over all pairs of lines that were taken; and how many of them mean what an earlier one does."""
    bytes_of, meaning_of = {}, {}
    for one, got in zip(asked, said):
        if one.meaning is not None and got != REFUSED:
            counts["same_meaning"] += one.meaning in bytes_of
            counts["meanings"] += one.meaning not in bytes_of
            had, meant = bytes_of.setdefault(one.meaning, got), meaning_of.setdefault(got, one.meaning)
            if had != got or meant != one.meaning:
                yield f"{one.kind}: {one.line!r} is answered {got!r}; its meaning was written {had!r}, and these bytes meant {meant}"


def changed(program, said, counts):
    """Each answer that is written again as another."""
    once = [got for got in said if got != REFUSED]
    twice = answers(program, [b"".join(got + b"\n" for got in once)], len(once))
    counts["written_twice"] += len(once)
    return [f"{one!r} is written again as {other!r}" for one, other in zip(once, twice) if one != other]


def told(name, counts):
    return f"{name} {counts.total()}: " + ", ".join(f"{kind} {n}" for kind, n in sorted(counts.items()))


def check(program, count, seed):
    rnd, taken, refused, counts, differ = random.Random(seed), Counter(), Counter(), Counter(), 0
    for at in range(0, count, PIECE):
        asked = list(some_lines(rnd, min(PIECE, count - at)))
        said = asked_of(program, rnd, asked)
        for one in asked:
            (refused if one.meaning is None else taken)[one.kind] += 1
        for fault in [*faults(asked, said), *pairs(asked, said, counts), *changed(program, said, counts)]:
            differ += 1
            if differ <= 20:
                print(fault if len(fault) <= 500 else fault[:300] + " .. " + fault[-200:])
    print(told("taken", taken))
    print(told("refused", refused))
    print(f"lines {count}, " + ", ".join(f"{name} {n}" for name, n in counts.items()) + f", differ {differ}")
    return differ


# ---- lines that are given

def answer_all():
    for line in lines_of(sys.stdin.buffer.read()):
        sys.stdout.buffer.write(answer(line) + b"\n")


def stored(lines_name, answers_name):
    """How many supplied answers there are, and how many are not those of the words."""
    with open(lines_name, "rb") as f:
        lines = lines_of(f.read())
    with open(answers_name, "rb") as f:
        supplied = lines_of(f.read())
    differ = abs(len(lines) - len(supplied))
    for line, allowed in zip(lines, supplied):
        if answer(line) not in allowed.split(b" / "):
            differ += 1
            print(f"{line!r}: by the words {answer(line)!r}, supplied {allowed!r}")
    print(f"{len(supplied)} answers, {differ} differ")
    return differ


def main():
    words = sys.argv[1:]
    if words == ["answer"]:
        answer_all()
    elif len(words) == 3 and words[0] == "stored":
        sys.exit(stored(*words[1:]) != 0)
    elif len(words) == 4 and words[0] == "check":
        sys.exit(check(words[1], int(words[2]), int(words[3])) != 0)
    else:
        sys.exit(__doc__)


main()
