"""Names of attributes whose hashes are alike in the bits by which a map finds them."""
import collections
import itertools

from ..workspace import Stop

# The hasher of attributes on the heap: what it begins with, and what it multiplies by.
SEED, MULTIPLIER, WORD = 0x243F6A8885A308D3, 0x9E3779B97F4A7C15, 1 << 64
# An index map compares names whose hashes share the upper eight bits of 32, if they stand near each other in its table, where they
# come to be by the lower ones: of the seven that it takes for 1,024 names these are the upper three.
COMPARED = 0xFF000070
LETTERS = "abcdefghijklmnopqrstuvwxyz0123456789"
LENGTH = 7


def feed(state, number):
    """The state of the hasher after a number: the length of a name, or one of its letters."""
    return (state ^ number) * MULTIPLIER % WORD


def state_of(name, length):
    """The state after the length of a name, and letters that it begins with."""
    state = feed(SEED, length)
    for letter in name:
        state = feed(state, ord(letter))
    return state


def join_halves(state):
    """What an index map keeps of a hash."""
    return (state ^ state >> 32) & 0xFFFFFFFF


def met_names(count):
    """Names that an index map compares with one another, found by trying."""
    names, wanted = [], None
    for front in itertools.product(LETTERS, repeat=LENGTH - 1):
        front = "".join(front)
        state = state_of(front, LENGTH)
        for letter in LETTERS:
            bits = join_halves(feed(state, ord(letter))) & COMPARED
            wanted = bits if wanted is None else wanted
            if bits == wanted:
                names.append(front + letter)
        if len(names) >= count:
            break
    names = names[:count]
    if len({join_halves(state_of(it, LENGTH)) & COMPARED for it in names}) != 1 or len(set(names)) != count:
        raise Stop("the names that were made don't meet")
    return names


def other_names(count):
    """As many other names of the same length."""
    names = [format(number * 7919 % 1000003 + 1000003, f"0{LENGTH}") for number in range(count)]
    if max(collections.Counter(join_halves(state_of(it, LENGTH)) & COMPARED for it in names).values()) > count / 100 + 10:
        raise Stop("the names that were made meet")
    return names


def tags_of(names, tags):
    return f"<p {' '.join(names)}></p>".encode() * tags


def meeting():
    """What names are in, how many of them are in a tag, and how many such tags there are."""
    yield "2,048 names in each of many tags", 2048, 200
    yield "1,024 names in each of many tags", 1024, 400
