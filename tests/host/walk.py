"""A walk over the chunks of a file that is not the command's own."""


def walked(file, at=12):
    """Code, place and size of each chunk that fits, and the place of one that does not, None where all fit."""
    found = []
    while at < len(file):
        size = int.from_bytes(file[at + 4:at + 8], 'little')
        if at + 8 + size > len(file):
            return found, at
        found.append((file[at:at + 4], at, size))
        # Past the end where the last pad is absent.
        at += 8 + size + size % 2
    return found, None


def title_lists(file):
    """Place and end of each list of titles."""
    return [(at, at + 8 + size) for code, at, size in walked(file)[0]
            if code == b'LIST' and file[at + 8:at + 8 + size][:4] == b'adtl']


def in_list(file, at, end):
    """What `walked` gives of the chunks in a list."""
    return walked(file[:end], at + 12)
