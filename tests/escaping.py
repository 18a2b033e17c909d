"""One line of text for any bytes, and back.

Printable ASCII stands for itself, except the backslash and the space:
  \\n        byte 10
  \\\\        a backslash
  \\xhh      the byte with these two hexadecimal digits (lower case)
  \\rN;TEXT; TEXT, N times over (N in base ten; in TEXT no \\r, and `;` only as \\x3b)
The space is escaped too, so that a line can go on with other words after one.
"""

# A run of one byte is abbreviated from this length on.
SHORTEST_RUN = 16


def _one(byte):
    if byte == 10:
        return "\\n"
    if byte == 0x5C:
        return "\\\\"
    if 0x21 <= byte <= 0x7E:
        return chr(byte)
    return "\\x%02x" % byte


def escape(data):
    out = []
    place = 0
    while place < len(data):
        end = place
        while end < len(data) and data[end] == data[place]:
            end += 1
        length = end - place
        if length >= SHORTEST_RUN:
            text = "\\x3b" if data[place] == 0x3B else _one(data[place])
            out.append("\\r%d;%s;" % (length, text))
        else:
            out.append(_one(data[place]) * length)
        place = end
    return "".join(out)


def unescape(text):
    out = bytearray()
    place = 0
    while place < len(text):
        if text[place] != "\\":
            out.append(ord(text[place]))
            place += 1
        elif text[place + 1] == "n":
            out.append(10)
            place += 2
        elif text[place + 1] == "\\":
            out.append(0x5C)
            place += 2
        elif text[place + 1] == "x":
            out.append(int(text[place + 2:place + 4], 16))
            place += 4
        elif text[place + 1] == "r":
            number_end = text.index(";", place)
            text_end = text.index(";", number_end + 1)
            times = int(text[place + 2:number_end])
            out += unescape(text[number_end + 1:text_end]) * times
            place = text_end + 1
        else:
            raise ValueError("unknown escape in " + text[place:place + 10])
    return bytes(out)
