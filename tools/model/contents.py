"""What containers hold, what their changes do, and how they are printed."""
import limits


class Refused(Exception):
    """A change that a container refuses, in the words of statements. Kernels trap in the same words, with hyphens."""

    def __init__(self, text):
        self.text = text


class Part:
    """The elements of an array or a list from `start` on, as an array."""

    def __init__(self, elements, start, length):
        self.elements = elements
        self.start = start
        self.length = length

    def slice(self, start, length):
        if start + length > self.length:
            raise Refused("range")
        return Part(self.elements, self.start + start, length)

    def place(self, index):
        if not 0 <= index < self.length:
            raise Refused("range")
        return self.start + index

    def get(self, index):
        return self.elements[self.place(index)]

    def set(self, index, value):
        self.elements[self.place(index)] = value

    def text(self):
        return texts_of(self.elements[self.start : self.start + self.length])


class Reference:
    words = 1

    def __init__(self, value):
        self.value = value

    def text(self):
        return str(self.value)


class Array(Part):
    def __init__(self, elements):
        super().__init__(elements, 0, len(elements))
        self.words = len(elements)


class List:
    def __init__(self, capacity):
        self.capacity = capacity
        self.elements = []

    @property
    def words(self):
        return self.capacity + 1

    @property
    def length(self):
        return len(self.elements)

    def as_array(self):
        return Part(self.elements, 0, len(self.elements))

    def get(self, index):
        return self.as_array().get(index)

    def set(self, index, value):
        self.as_array().set(index, value)

    def add(self, value):
        if len(self.elements) == self.capacity:
            raise Refused("full")
        self.elements.append(value)

    def remove(self, index):
        """The last element goes to the removed place."""
        place = self.as_array().place(index)
        self.elements[place] = self.elements[-1]
        self.elements.pop()

    def clear(self):
        self.elements.clear()

    def text(self):
        return texts_of(self.elements)


class Map:
    def __init__(self, capacity):
        self.capacity = capacity
        self.pairs = {}
        self.words = 1 + 3 * places_of_map(capacity)

    @property
    def length(self):
        return len(self.pairs)

    def get(self, key):
        if key not in self.pairs:
            raise Refused("missing key")
        return self.pairs[key]

    def set(self, key, value):
        if key not in self.pairs and len(self.pairs) == self.capacity:
            raise Refused("full")
        self.pairs[key] = value

    def add(self, key, value):
        if key in self.pairs:
            raise Refused("present key")
        self.set(key, value)

    def remove(self, key):
        if key not in self.pairs:
            raise Refused("missing key")
        del self.pairs[key]

    def clear(self):
        self.pairs.clear()

    def text(self):
        return "{" + ", ".join(f"{key}: {value}" for key, value in sorted(self.pairs.items())) + "}"


class Stream:
    """An index that wasn't written has None in place of its items."""

    def __init__(self, count, room):
        self.room = room
        self.entries = [None] * count
        self.words = count * (room + 1)

    @property
    def length(self):
        return len(self.entries)

    def entry(self, index):
        if not 0 <= index < len(self.entries):
            raise Refused("range")
        return self.entries[index]

    def begin(self, index):
        if self.entry(index) is not None:
            raise Refused("written")
        self.entries[index] = []

    def write(self, index, value):
        if len(self.entries[index]) == self.room:
            raise Refused("full")
        self.entries[index].append(value)

    def count(self, index):
        return len(self.entry(index) or ())

    def at(self, index, place):
        items = self.entry(index) or ()
        if not 0 <= place < len(items):
            raise Refused("range")
        return items[place]

    def clear(self):
        self.entries = [None] * len(self.entries)

    def text(self):
        return "[" + ", ".join(texts_of(entry or ()) for entry in self.entries) + "]"


def places_of_map(capacity):
    """The least power of two that is at least 2 and at least twice the capacity."""
    places = 2
    while places < 2 * capacity:
        places *= 2
    return places


def texts_of(numbers):
    return "[" + ", ".join(map(str, numbers)) + "]"


def whole(number):
    """The number, where it has 64 bits."""
    if not limits.LEAST <= number <= limits.MOST:
        raise Refused("overflow")
    return number


def divided(left, right):
    """Quotient and remainder, toward zero."""
    if right == 0:
        raise Refused("zero-divisor")
    quotient = whole(abs(left) // abs(right) * (1 if (left < 0) == (right < 0) else -1))
    return quotient, left - quotient * right
