"""The text of a source or a table, from the bytes of its file."""

UTF_16 = (b"\xff\xfe", b"\xfe\xff")


def decoded(data: bytes) -> str:
    """The text of a file. Bytes that are no UTF-8 are read as Latin-1, as comments of old programs are;
    an end of file of DOS is left out."""
    if data.startswith(UTF_16):
        raise ValueError("it is a text in UTF-16: save it in UTF-8")
    try:
        text = data.decode("utf-8-sig")
    except UnicodeDecodeError:
        text = data.decode("latin-1")
    return text.rstrip("\x1a") if text.endswith("\x1a") else text
