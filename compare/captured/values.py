"""Values that were read, held against the server's. Both are words (docs/CASES.md); the server's may also be `hidden`, a column that no query names, and
`json:SIZE:TEXT` or `json:`, which tells of MySQL's binary JSON no more than its size, or not even that."""
# bits of the integer types
WIDTHS = {1: 8, 2: 16, 9: 24, 3: 32, 8: 64}
OLD_TIME, CHAR = 11, 254
# the part that a negative old TIME has out of range (Q4.4)
HOUR = "4"
SIGN_KNOWN = 4
# as many columns as a record of kind 1 can have
FEW_COLUMNS = 255
EQUAL = "values equal to the server's"


def unhex(word):
    return b"" if word == "-" else bytes.fromhex(word)


def hex_word(s):
    return s.hex() or "-"


def columns_of(record):
    return (len(record) - 6) // 6


def entry_of(record, place):
    return record[6 + 6 * place:12 + 6 * place]


def present(record, presence):
    return [place for place in range(columns_of(record)) if presence[place // 8] >> place % 8 & 1]


def how_json(value, true):
    if not true:
        return "JSON, of which the server told the text alone"
    return "JSON, of the length that the server tells" if len(unhex(value)) == int(true.split(":")[0]) else None


def how_value(entry, got, true):
    """how a value that was read stands to the server's: None if the difference is not listed"""
    if got == true:
        return EQUAL
    if true == "hidden":
        return "values of columns that the server does not name"
    name, _, value = got.partition(":")
    true_name, _, true_value = true.partition(":")
    if true_name == "json" and name == "bytes":
        return how_json(value, true_value)
    if entry[0] in WIDTHS and not entry[1] & SIGN_KNOWN and {name, true_name} <= {"int", "uint"}:
        if (int(value) - int(true_value)) % 2 ** WIDTHS[entry[0]] == 0:
            return "integers whose map tells no signedness, read as signed"
    if name == true_name and (got, true) in (("float:2147483648", "float:0"), ("double:9223372036854775808", "double:0")):
        return "a zero whose sign the server's query loses"
    if entry[0] == CHAR and name == true_name == "bytes" and unhex(value).ljust(len(unhex(true_value)), b"\0") == unhex(true_value):
        return "BINARY, whose trailing zero bytes no server logs"
    return None


def judge_values(told, case, record, presence, values, how, trues):
    """the values of an image, and how it ended: whether all of it was read"""
    columns = present(record, presence)
    if len(values) > len(columns):
        told.differ("more values than columns", case, " ".join(values), " ".join(trues))
        return False
    for rank, place in enumerate(columns):
        entry = entry_of(record, place)
        if rank == len(values):
            if how == ["refused", "10", str(place), HOUR] and entry[0] == OLD_TIME and trues[rank].startswith("time:-"):
                told["negative old TIME, refused 10 for its hour: 01 reads it unsigned"] += 1
            else:
                told.differ("column %d" % place, case, " ".join(how), trues[rank])
            return False
        equal = how_value(entry, values[rank], trues[rank])
        if equal is None:
            told.differ("column %d" % place, case, values[rank], trues[rank])
            return False
        told[equal] += 1
    return True
