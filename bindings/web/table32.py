"""The table of a module: one of 64 bits that is empty, which no instruction uses, becomes one of 32, which more engines read."""

HEADER = 8  # bytes
TABLES, ELEMENTS = 4, 9  # kinds of sections
ONE_OF_FUNCTIONS = b"\x01\x70"
WIDE = 4  # the flag of a table of 64 bits


def number_at(module, place):
    """The number in LEB128 that begins at a place, and the place behind it."""
    number = shift = 0
    while True:
        byte = module[place]
        place += 1
        number |= (byte & 127) << shift
        shift += 7
        if byte < 128:
            return number, place


def with_table_of_32_bits(module):
    changed, place = bytearray(module), HEADER
    while place < len(changed):
        kind = changed[place]
        length, body = number_at(changed, place + 1)
        if kind == ELEMENTS:
            raise ValueError("the table has elements")
        if kind == TABLES:
            if changed[body : body + 2] != ONE_OF_FUNCTIONS or not changed[body + 2] & WIDE:
                raise ValueError("the table is no single one of 64 bits")
            changed[body + 2] &= ~WIDE
        place = body + length
    return bytes(changed)
