"""Stored dates and times: types 7, 11, 12, 14, 17, 18, 19. A value is its kind and its parts, as docs/CASES.md writes them.

A reader is given all the bytes of a value. It answers parts that may be out of range; `offending` names the first that is (request 4, with the
readings Q4.1 to Q4.4)."""

TIMESTAMP, TIME, DATETIME, DATE, TIMESTAMP2, DATETIME2, TIME2 = 7, 11, 12, 14, 17, 18, 19
# bytes of each, without the fraction
SIZES = {TIMESTAMP: 4, TIME: 3, DATETIME: 8, DATE: 3, TIMESTAMP2: 4, DATETIME2: 5, TIME2: 3}
KINDS = {TIMESTAMP: "seconds", TIME: "time", DATETIME: "datetime", DATE: "date", TIMESTAMP2: "seconds", DATETIME2: "datetime", TIME2: "time"}
# "then a fraction of 0, 1, 2, 3 bytes for m0 0, 1..2, 3..4, 5..6, units of 10,000, 100, 1 microseconds"
FRACTION_BYTES = (0, 1, 1, 2, 2, 3, 3)
UNITS = (None, 10000, 100, 1)
# "year to 9999, month 12, day 31, hour 23 (time 838), minute and second 59, fraction 999,999"
MOST = {
    "seconds": (2 ** 32 - 1, 999999),
    "date": (9999, 12, 31),
    "datetime": (9999, 12, 31, 23, 59, 59, 999999),
    "time": (838, 59, 59, 999999),
}
# "year 1, month 2, day 3, hour 4, minute 5, second 6, fraction 7"; seconds since 1970 fill their bytes, so they are out of range for a writer alone
YEAR, MONTH, DAY, HOUR, MINUTE, SECOND, FRACTION, NEGATIVE = range(1, 9)
NAMED = {
    "seconds": (None, FRACTION),
    "date": (YEAR, MONTH, DAY),
    "datetime": (YEAR, MONTH, DAY, HOUR, MINUTE, SECOND, FRACTION),
    "time": (HOUR, MINUTE, SECOND, FRACTION),
}


def fraction_bytes(kind, m0):
    return FRACTION_BYTES[m0] if kind in (TIMESTAMP2, DATETIME2, TIME2) else 0


def size(kind, m0):
    return SIZES[kind] + fraction_bytes(kind, m0)


def micros_of(fraction, k):
    return fraction * UNITS[k] if k else 0


def judged(value):
    """each number of a value with the most that it may be; the sign of a time is none of them"""
    kind, *parts = value
    return list(zip(parts[1:] if kind == "time" else parts, MOST[kind]))


def offending(value):
    """the number of the first part that is out of its range, in a value that was read; 0 if none is"""
    # "and 8 for a negative datetime, which is tested before the others": it was read with a year below 0
    if value[0] == "datetime" and value[1] < 0:
        return NEGATIVE
    return next((name for name, (number, most) in zip(NAMED[value[0]], judged(value)) if number > most), 0)


def in_range(value):
    """whether a writer may take a value; none that was read is a negative zero"""
    # "Ranges: .. datetimes not negative. A time is sign, hours, the rest; no negative zero."
    if value[:2] == ("time", "-") and not any(value[2:]):
        return False
    return all(0 <= number <= most for number, most in judged(value))


def read(kind, m0, stored):
    k = fraction_bytes(kind, m0)
    if kind == TIME2:
        return read_time2(stored, k)
    if kind in (TIMESTAMP2, DATETIME2):
        whole, fraction = stored[:SIZES[kind]], stored[SIZES[kind]:]
        micros = micros_of(int.from_bytes(fraction, "big"), k)
        whole = int.from_bytes(whole, "big")
        return ("seconds", whole, micros) if kind == TIMESTAMP2 else read_datetime2(whole, micros)
    number = int.from_bytes(stored, "little")
    if kind == TIMESTAMP:
        return "seconds", number, 0
    if kind == TIME:  # "decimal HHMMSS in 3 unsigned bytes"
        return "time", "+", number // 10000, number // 100 % 100, number % 100, 0
    if kind == DATE:  # "3 bytes little-endian, day 5 bits, month 4, year"
        return "date", number // 512, number // 32 % 16, number % 32
    date, clock = divmod(number, 10 ** 6)  # "YYYYMMDDhhmmss in 8, little-endian"
    return "datetime", date // 10000, date // 100 % 100, date % 100, clock // 10000, clock // 100 % 100, clock % 100, 0


def read_datetime2(number, micros):
    # "5 bytes less 2^39; year·13+month, day (5 bits), hour (5), minute (6), second (6)"
    number -= 2 ** 39
    months = number >> 22
    return "datetime", months // 13, months % 13, number >> 17 & 31, number >> 12 & 31, number >> 6 & 63, number & 63, micros


def read_time2(stored, k):
    if k == 3:  # "with m0 5..6, 6 bytes less 2^47 as one packed number, absolute value then split at 2^24"
        packed = int.from_bytes(stored, "big") - 2 ** 47
        negative, whole, fraction = packed < 0, abs(packed) >> 24, abs(packed) % 2 ** 24
    else:  # "3 bytes less 2^23; if negative with nonzero fraction, whole part plus 1 and fraction less 256 or 65,536"
        whole, fraction = int.from_bytes(stored[:3], "big") - 2 ** 23, int.from_bytes(stored[3:], "big")
        if whole < 0 and fraction:
            whole, fraction = whole + 1, fraction - 256 ** k
        negative, whole, fraction = whole < 0 or fraction < 0, abs(whole), abs(fraction)
    # "hours are the whole part over 4,096, minutes and seconds 6 bits each"
    return "time", "-" if negative else "+", whole >> 12, whole >> 6 & 63, whole & 63, micros_of(fraction, k)


def takes(kind, m0, value):
    """whether a column has the value: in range, in units of what its fraction's bytes count, and not below zero in the old TIME"""
    if value[0] != KINDS[kind] or not in_range(value):
        return False
    if kind == DATE:
        return True
    k = fraction_bytes(kind, m0)
    if kind == TIME and value[1] == "-":
        return False
    return value[-1] % UNITS[k] == 0 if k else value[-1] == 0


def write(kind, m0, value):
    """the bytes of a value that the column takes"""
    k = fraction_bytes(kind, m0)
    parts, micros = value[1:-1], value[-1]
    fraction = micros // UNITS[k] if k else 0
    if kind == TIME2:
        sign, hours, minutes, seconds = parts
        packed = (hours << 12 | minutes << 6 | seconds) << 8 * k | fraction
        return (2 ** (23 + 8 * k) + (-packed if sign == "-" else packed)).to_bytes(3 + k, "big")
    if kind in (TIMESTAMP2, DATETIME2):
        whole = parts[0] if kind == TIMESTAMP2 else datetime2(*parts)
        return whole.to_bytes(SIZES[kind], "big") + fraction.to_bytes(k, "big")
    if kind == DATE:
        _, year, month, day = value
        number = year * 512 + month * 32 + day
    elif kind == TIMESTAMP:
        number = parts[0]
    else:
        number = 0
        for part in parts[1:] if kind == TIME else parts:
            number = number * 100 + part
    return number.to_bytes(SIZES[kind], "little")


def datetime2(year, month, day, hour, minute, second):
    return 2 ** 39 + (year * 13 + month << 22 | day << 17 | hour << 12 | minute << 6 | second)
