"""What `sample N` has to print, by the plain meaning of docs/FORMATS.md. It shares nothing with the program."""

MODULUS = 2**64
MOST_SAMPLE = 200_000
SESSIONS = 4


def numbers():
    """The numbers of the generator from number 1 on."""
    number = 0
    while True:
        number = (75 * number + 74) % 65_537
        yield number


def amounts(count):
    """What is added, in order: the loaded lines' values, and then those of the calls of each session."""
    yield from range(1, count + 1)
    for session in range(1, SESSIONS + 1):
        for _ in range(count // SESSIONS):
            yield session


def sampled(count):
    """The lines that are printed of a number."""
    cells = {}
    for amount, number in zip(amounts(count), numbers()):
        cell = 1 + number % 1000, 1 + number // 1000
        cells[cell] = (cells.get(cell, 0) + amount) % MODULUS
    nonzeros = [value for value in cells.values() if value]
    total = sum(nonzeros) % MODULUS
    return f"sample {count}\ncount {len(nonzeros)}\nsum {total if total < MODULUS // 2 else total - MODULUS}\n".encode()
