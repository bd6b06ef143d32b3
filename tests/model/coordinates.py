"""Coordinates grouped before storing, and back, after request N12; prints the text that the program `gate_coordinates` is to print."""

from samples import said
from sleep_model import LONGEST_CHUNK, be, call, node_hash, number_in, refuse_if

WORD = 4
MODULUS = 2 ** 32


def words_of(data):
    """The 4-byte words, and the up to 3 bytes that remain."""
    end = len(data) - len(data) % WORD
    return [number_in(data[at:at + WORD]) for at in range(0, end, WORD)], data[end:]


def grouped(data):
    """Each word but the first becomes its difference from the word before; all first bytes, all second bytes, and so on."""
    words, remaining = words_of(data)
    differences = words[:1] + [(word - before) % MODULUS for before, word in zip(words, words[1:])]
    rows = [be(WORD, difference) for difference in differences]
    return b''.join(bytes(row[k] for row in rows) for k in range(WORD)) + remaining


def ungrouped(data):
    count = len(data) // WORD
    planes = [data[k * count:(k + 1) * count] for k in range(WORD)]
    words, word = [], 0
    for row in zip(*planes):
        word = (word + number_in(bytes(row))) % MODULUS
        words.append(be(WORD, word))
    return b''.join(words) + data[WORD * count:]


def written(result, data, buffer):
    """7, then 14; the result at the front of the buffer, the rest unchanged."""
    refuse_if(len(data) > LONGEST_CHUNK, 7)
    refuse_if(len(buffer) < len(data), 14)
    buffer[:len(data)] = result(bytes(data))
    return ()


@call
def group(data, buffer):
    return written(grouped, data, buffer)


@call
def ungroup(data, buffer):
    return written(ungrouped, data, buffer)


# ---- the program's rows

CALLS = {'group': group, 'ungroup': ungroup}
ROOM = 65540
ROWS = [(count, ROOM) for count in list(range(18)) + list(range(65533, 65538))]
ROWS += [(0, 0), (11, 11), (11, 10), (11, 0), (65536, 65536), (65536, 65535), (65537, 65536), (65537, 0)]


def sample(count):
    """The highest byte of each number of a sequence whose steps grow by one number."""
    x, step, out = 1, 1, bytearray()
    for _ in range(count):
        out.append(x // 2 ** 24)
        x, step = (x + step) % MODULUS, (step + 2654435769) % MODULUS
    return bytes(out)


def line(name, data, room):
    out = bytearray(b'\xee' * ROOM)
    lent = out[:room]
    answer = CALLS[name](data, lent)
    out[:room] = lent
    return '%s %d %d %s %s %s' % (name, len(data), room, said(answer), out[:20].hex(), node_hash(bytes(out)).hex())


def there_and_back(data, out, back, first, second):
    """The buffers go from one pair of calls to the next."""
    answers = [CALLS[first](data, out)]
    answers.append(CALLS[second](bytes(out[:len(data)]), back))
    same = bytes(back[:len(data)]) == data
    return '%s, %s %s %s %s' % (first, second, said(answers[0]), said(answers[1]), 'the same' if same else 'others')


def lines():
    whole = sample(65537)
    for count, room in ROWS:
        data = whole[:count]
        yield line('group', data, room)
        yield line('ungroup', data, room)
        if count <= room:
            out, back = bytearray(b'\xee' * ROOM), bytearray(b'\xee' * ROOM)
            yield there_and_back(data, out, back, 'group', 'ungroup')
            yield there_and_back(data, out, back, 'ungroup', 'group')


if __name__ == '__main__':
    print('\n'.join(lines()))
