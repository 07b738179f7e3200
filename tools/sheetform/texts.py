"""The bytes of a file as a text or as a sheet."""
from .encode import TextError
from .tree import Place

UTF_16 = (b'\xff\xfe', b'\xfe\xff')
BLANKS = b'\t\n\f\r'


def is_sheet(data):
    """Whether bytes are meant as a sheet: its three sizes have zeros or other bytes that no text has. Nothing at all is no text either."""
    return not data or not data.startswith(UTF_16) and any(b < 32 and b not in BLANKS for b in data[:12])


def decoded(data):
    """The letters of a text in UTF-8."""
    if data.startswith(UTF_16):
        raise TextError(Place(1, 1), 'this text is in UTF-16; save it as UTF-8')
    try:
        return data.decode('utf-8-sig')
    except UnicodeDecodeError as e:
        before = data[:e.start].decode('utf-8')
        line, column = before.count('\n') + 1, len(before) - before.rfind('\n')
        raise TextError(Place(line, column), 'this byte is no UTF-8; save the text as UTF-8')
