"""Records of CSV ("Tables"): how they are read, and how one is written."""

MARK = b"\xef\xbb\xbf"
QUOTE, COMMA, FEED, RETURN = b'",\n\r'
# Where a reader of a table is: before a record, before a field, in a field, in quotes, after a quote in quotes.
BETWEEN, BEFORE, INSIDE, QUOTED, AFTER = range(5)


def records_of(table):
    """The records of a table, each a list of its fields."""
    records, fields, field, where = [], [], bytearray(), BETWEEN
    for byte in table.removeprefix(MARK):
        if where == QUOTED:
            where = AFTER if byte == QUOTE else QUOTED
            if where == QUOTED:
                field.append(byte)
        elif byte in (FEED, RETURN):
            if where != BETWEEN:
                records.append([*fields, bytes(field)])
                fields, field, where = [], bytearray(), BETWEEN
        elif byte == COMMA:
            fields.append(bytes(field))
            field, where = bytearray(), BEFORE
        elif byte == QUOTE and where in (BETWEEN, BEFORE):
            where = QUOTED
        else:
            # a quote after one in quotes stands for a quote, and quotes go on; after any other byte they have ended
            field.append(byte)
            where = QUOTED if byte == QUOTE and where == AFTER else INSIDE
    return records if where == BETWEEN else [*records, [*fields, bytes(field)]]


def written_field(field):
    """A field as it is written."""
    is_plain = not any(byte in field for byte in b'",\n\r')
    return field if is_plain else b'"%s"' % field.replace(b'"', b'""')


def written_record(fields):
    """A record as it is written, without its line feed."""
    return b'""' if fields == [b""] else b",".join(map(written_field, fields))
