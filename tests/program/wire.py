"""Wire bytes, spelled for tests from the encoding alone: varints in their shortest form, fields, packed numbers, zigzag."""


def varint(number):
    groups = [number & 127]
    while number := number >> 7:
        groups.append(number & 127)
    return bytes(group | 128 for group in groups[:-1]) + bytes(groups[-1:])


def field(number, content):
    """A field of a number, or of bytes."""
    if isinstance(content, int):
        return varint(number << 3) + varint(content)
    return varint(number << 3 | 2) + varint(len(content)) + content


def zigzag(number):
    return number << 1 if number >= 0 else (-number << 1) - 1


def packed(numbers):
    return b"".join(map(varint, numbers))
