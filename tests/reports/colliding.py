"""Texts that collide in an index.

The first part are those of the fixed hasher of the kit's indexes, a form of foldhash, for an index that feeds it with the texts as they
are, without a salt, as `erd` once did: it multiplies two words of eight bytes, and where the first meets the state of the
hasher, the product is 0, whatever the second is. The seed of the hasher is public, so the first word can be worked out.

The second part are texts for the indexes that `erd` has now, which hash under a salt of the report: those for another salt than the
report has, since an attacker has to choose the texts before he knows theirs."""
import atexit
import functools
import itertools
import json
import os
import shutil
import subprocess
import tempfile

WORD = 2**64 - 1
MULTIPLIER = 0x9E3779B97F4A7C15
START = 0x243F6A8885A308D3
PRINTABLE = range(0x21, 0x7F)
# The numbers of the families, by the members that hold their objects.
FAMILIES = {'GpUnit': 0, 'Party': 1, 'Person': 2, 'Office': 3, 'Header': 4, 'Candidate': 5, 'Contest': 6, 'BallotStyle': 7,
            'ContestSelection': 8}
ELECTION = 9


def folded(one, other):
    product = one * other
    return (product & WORD) ^ (product >> 64)


def word_at(data, at):
    return int.from_bytes(data[at:at + 8], 'little')


def short_word(data):
    """Up to eight bytes as one number."""
    if len(data) >= 4:
        return int.from_bytes(data[:4], 'little') | int.from_bytes(data[-4:], 'little') << 32
    return data[0] | data[len(data) // 2] << 8 | data[-1] << 16 if data else 0


def before_last(state, data):
    """The state of the hasher before it multiplies the last sixteen bytes of a write."""
    state = (state + len(data)) & WORD
    for at in range(0, (len(data) - 1) // 16 * 16, 16):
        state = folded(word_at(data, at) ^ state, word_at(data, at + 8) ^ MULTIPLIER)
    return state


def written(state, data):
    """The state of the hasher after a write."""
    if len(data) <= 8:
        return folded(state ^ short_word(data), MULTIPLIER ^ 2 * len(data))
    return folded(word_at(data, len(data) - 16) ^ before_last(state, data), word_at(data, len(data) - 8) ^ MULTIPLIER)


def after(*writes):
    state = START
    for data in writes:
        state = written(state, data)
    return state


def place_of(number, places):
    """The place of a number in an index that hashes it without a salt."""
    mixed = after(number_write(number))
    return (mixed ^ mixed >> 32) & (places - 1)


def text_writes(text):
    """What the hasher is given of a text."""
    return [text.encode(), b'\xff']


def number_write(number, size=8):
    return number.to_bytes(size, 'little')


def is_printable(word):
    return all(byte in PRINTABLE and byte not in b'"\\' for byte in word)


def many(beginning, count):
    """So many texts with this beginning, each with eight letters more."""
    return [beginning + '%08d' % number for number in range(count)]


def ids(count):
    """`@id` texts of 32 bytes: sixteen bytes are tried until the next eight, which the state gives, are letters."""
    for number in itertools.count():
        first = b'%016d' % number
        word = before_last(START, first + bytes(16)).to_bytes(8, 'little')
        if is_printable(word):
            return many((first + word).decode(), count)


def values_of_keys(count, family=FAMILIES['Person']):
    """A Type, and values for keys of this family with that Type and no OtherType."""
    for letters in itertools.product('abcdefghijklmnopqrstuvwxyz', repeat=3):
        kind = ''.join(letters)
        state = after(number_write(family), *text_writes(kind), *text_writes(''))
        word = before_last(state, bytes(16)).to_bytes(8, 'little')
        if is_printable(word):
            return kind, many(word.decode(), count)


def labels(count):
    """Labels of selections of a measure, without a SequenceOrder. The hasher is given the JSON text of a label, with its quotes: so
    the last letters are seven."""
    for number in itertools.count():
        first = b'"%015d' % number
        state = after(*text_writes('ElectionResults.BallotMeasureSelection'), number_write(0), b'\0', number_write(0), number_write(1))
        word = before_last(state, first + bytes(16)).to_bytes(8, 'little')
        if is_printable(word):
            return ['%s%07d' % ((first[1:] + word).decode(), each) for each in range(count)]


# ---- under a salt


def turned(word, bits):
    return (word << bits | word >> (64 - bits)) & WORD


class Sip:
    """SipHash-1-3 with the key 0, which is std's default hasher. It takes words of eight bytes alone."""

    def __init__(self):
        self.state = [0x736f6d6570736575, 0x646f72616e646f6d, 0x6c7967656e657261, 0x7465646279746573]
        self.length = 0

    def turn(self):
        a, b, c, d = self.state
        a, c = (a + b) & WORD, (c + d) & WORD
        b, d = turned(b, 13) ^ a, turned(d, 16) ^ c
        a, c = (turned(a, 32) + d) & WORD, (c + b) & WORD
        self.state = [a, turned(b, 17) ^ c, turned(c, 32), turned(d, 21) ^ a]

    def take(self, word):
        self.state[3] ^= word
        self.turn()
        self.state[0] ^= word

    def write(self, word):
        self.take(word)
        self.length += 8

    def finish(self):
        self.take((self.length & 0xff) << 56)
        self.state[2] ^= 0xff
        for _ in range(3):
            self.turn()
        return functools.reduce(lambda one, other: one ^ other, self.state)


def text_words(text):
    """The words that a salt is computed from, for a text: one of the bytes after its whole words and of its length, its length if that
    is long, and its whole words."""
    data = text.encode()
    whole = len(data) // 8 * 8
    first = data[whole:].ljust(7, b'\0') + bytes([min(len(data), 254)])
    return [word_at(first, 0)] + ([len(data)] if len(data) >= 254 else []) + [word_at(data, at) for at in range(0, whole, 8)]


def by_bytes(names):
    return sorted(names, key=str.encode)


# What an index hashes and a salt could leave out, by the indexes that could be crowded then.
EVERYTHING = ''


def value_words(value, without=EVERYTHING):
    """The same for a value: a number for its kind, and then all that it holds."""
    if value is None or isinstance(value, bool):
        left_out = {'flags': (True, False), 'nulls': (None, True)}.get(without, ())
        return [] if value in left_out else [{None: 1, False: 2, True: 3}[value]]
    if isinstance(value, int):
        return [4] + [value] * (without != 'orders') if value >= 0 else [8, value & WORD]
    if isinstance(value, str):
        return [5] + text_words(value)
    if isinstance(value, list):
        words = [word for inner in value for word in value_words(inner, without)]
        return words if without == 'nesting' else [6] + words + [0]
    return [7] + [word for name in by_bytes(value) for word in member_words(name, value[name], without)] + [WORD]


def member_words(name, value, without):
    return (text_words(name) if without != 'names' else []) + value_words(value, without)


def key_words(value, without=EVERYTHING):
    """The same for the key of an object, if it has one: the least of its identifiers."""
    triples = [[identifier.get(name, '') for name in ('Type', 'OtherType', 'Value')] for identifier in value.get('ExternalIdentifier', [])]
    if not triples:
        return None
    least = min(triples, key=lambda triple: [text.encode() for text in triple])
    return [word for text in least[:2 if without in ('keys', 'elections') else 3] for word in text_words(text)]


def parts_words(number, id, key, selection):
    """The same for an object or an election: a number that tells which it is and which parts it has, and these parts."""
    parts = [id, key, selection]
    bits = sum((part is not None) << place for place, part in enumerate(parts))
    return [number + 16 * bits] + [word for part in parts for word in part or []]


def id_words(value, without):
    return (text_words(value['@id']) if without != '@ids' else []) if '@id' in value else None


def objects_words(holder, name, without):
    """The same for the objects in this member."""
    words = []
    for each in holder.get(name, []):
        is_selection = name == 'ContestSelection'
        key = None if is_selection else key_words(each, without)
        words += parts_words(FAMILIES[name], id_words(each, without), key, value_words(each, without) if is_selection else None)
    return words


def election_words(election, without):
    words = parts_words(ELECTION, None, key_words(election, without), None)
    words += objects_words(election, 'BallotStyle', without) + objects_words(election, 'Candidate', without)
    for contest in election.get('Contest', []):
        words += objects_words({'Contest': [contest]}, 'Contest', without) + objects_words(contest, 'ContestSelection', without)
    return words


def report_words(report, without=EVERYTHING):
    words = [word for election in report['Election'] for word in election_words(election, without)]
    for name in ('GpUnit', 'Header', 'Office', 'Party', 'Person'):
        words += objects_words(report, name, without)
    return words


def after_words(words):
    hasher = Sip()
    for word in words:
        hasher.write(word)
    return hasher


def salt_of(report, without=EVERYTHING):
    """The two words of salt of a report, or what they would be if the salt left out what tells the keys of an index apart."""
    words = report_words(report, without)
    return [after_words([first] + words).finish() for first in (1, 2)]


def joined(salt, other):
    """The words of salt of an index that has keys of two reports, from those of both."""
    return salt + [after_words(words).finish() for words in (other, other + [0])]


def salted(salt, words):
    """The number of a key that is written in these words."""
    return after_words(salt + words).finish()


# ---- what crowds an index under a salt that is known

def bytes_of(words):
    return b''.join(number_write(word) for word in words)


@functools.cache
def crowding():
    """The program of crowding.c, which is built once."""
    folder = tempfile.mkdtemp()
    atexit.register(shutil.rmtree, folder)
    program = os.path.join(folder, 'crowding')
    source = os.path.join(os.path.dirname(os.path.abspath(__file__)), 'crowding.c')
    subprocess.run([os.environ.get('CC', 'cc'), '-O2', '-o', program, source], check=True)
    return program


def crowded(count, salt, key, is_tagged=False):
    """So many keys that an index with this salt, or with no words of salt, would put into one place, and under one tag where that is
    asked. Each is told by the numbers of its pieces."""
    places = 1
    while 9 * places < count:
        places *= 2
    texts = [bytes_of(salt) + key.beginning, key.between, key.ending, *key.pieces]
    words = [crowding(), str(count), str(places), str(int(is_tagged)), str(key.digits)] + [text.hex() for text in texts]
    return subprocess.run(words, check=True, capture_output=True, text=True).stdout.split()


class Key:
    """How an index hashes a key that is made of so many pieces: what is written before them, between two, and after them."""

    def __init__(self, beginning=b'', ending=b'', pieces=tuple(b'%d' % digit for digit in range(10)), between=b'', digits=16):
        self.beginning, self.ending, self.pieces, self.between, self.digits = beginning, ending, pieces, between, digits

    def others(self, count):
        """So many keys that crowd nothing, spread as far as those that crowd an index."""
        return [numeral(number * 32749, len(self.pieces)).rjust(self.digits, '0') for number in range(count)]


def numeral(number, base):
    return format(number, 'b') if base == 2 else str(number)


# An `@id`, and the value of an identifier of this Type without an OtherType.
ID = Key()
VALUE = Key(b'local-level\xff\xff', b'\xff')



def write_in_key(before):
    """The name of a write-in by its SequenceOrder, after these bytes: eight digits of base 256, of which each is at most 9."""
    beginning = b''.join([before, *text_writes('ElectionResults.CandidateSelection'), number_write(0), b'\1', number_write(1)])
    return Key(beginning, bytes(8) + number_write(0) + number_write(0), tuple(bytes([digit]) for digit in range(10)), digits=8)


# A write-in of the first contest as `check` indexes it, and by its name alone, as `compare` does.
ORDER, NAME = write_in_key(number_write(0)), write_in_key(b'')


def order_of(digits):
    """The number that is told by these digits."""
    return int.from_bytes(bytes(int(digit) for digit in digits), 'little')


# What differs between labels: the name of a carried member, truth values, null or a truth value, one array or two.
PIECES = {'flags': (b'false', b'true'), 'nulls': (b'null', b'true'), 'nesting': (b'[]', b'[[]]')}
KINDS = ('names', *PIECES)


def label_key(label, kind):
    """The name of a selection of a measure in the first contest, by its label: this one with a carried member more, which comes last."""
    text = json.dumps(label, sort_keys=True, separators=(',', ':'))[:-1].encode()
    before = [number_write(0), *text_writes('ElectionResults.BallotMeasureSelection'), number_write(0), b'\0', number_write(0), number_write(1)]
    after = [b'\xff', number_write(0)]
    if kind == 'names':
        return Key(b''.join(before) + text + b',"x', b'":null}' + b''.join(after))
    return Key(b''.join(before) + text + b',"x":[', b']}' + b''.join(after), PIECES[kind], b',', 40)


def label_of(label, kind, digits):
    """The label that is told by these digits."""
    if kind == 'names':
        return {**label, 'x' + digits: None}
    return {**label, 'x': [json.loads(PIECES[kind][int(digit)]) for digit in digits]}
