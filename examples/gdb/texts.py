"""Texts as JSON can have them. It knows nothing else."""


def clean(text):
    """The text without what is no UTF-8."""
    return str(text).encode(errors="replace").decode()


def pieces_of(text, most):
    """The text in pieces of at most so many bytes, none with a character in part."""
    data, begin = text.encode(), 0
    while begin < len(data):
        end = begin + most
        while end < len(data) and data[end] & 0xC0 == 0x80:
            end -= 1
        yield data[begin:end].decode()
        begin = end
