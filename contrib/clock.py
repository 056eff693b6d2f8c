"""Times as a person reads them. All of them are in microseconds since 1970, in UTC, and may lie in any year."""

SECOND = 1_000_000
MINUTE, HOUR, DAY = 60 * SECOND, 3600 * SECOND, 86_400 * SECOND
UNITS = (("d", DAY), ("h", HOUR), ("min", MINUTE), ("s", SECOND))

# How far apart the marks of an axis may be: 1, 2 and 5 times a power of ten, and round numbers of seconds, minutes and
# hours.
STEPS = (*(digit * 10 ** zeros for zeros in range(6) for digit in (1, 2, 5)),
         *(number * unit for unit in (SECOND, MINUTE) for number in (1, 2, 5, 10, 15, 30)),
         *(number * HOUR for number in (1, 2, 3, 6, 12)),
         *(digit * 10 ** zeros * DAY for zeros in range(9) for digit in (1, 2, 5)))


def date(time):
    """The day of a time, by the Gregorian calendar."""
    # (years that begin with March, in eras of 400 years, so that the day which may be missing comes last)
    era, day = divmod(time // DAY + 719_468, 146_097)
    year = (day - day // 1460 + day // 36_524 - day // 146_096) // 365
    day -= 365 * year + year // 4 - year // 100
    month = (5 * day + 2) // 153
    day -= (153 * month + 2) // 5
    return f"{year + 400 * era + (month >= 10):04}-{(month + 2) % 12 + 1:02}-{day + 1:02}"


def hour(time, least=SECOND):
    """The time of day. Parts of a second stand where there are any, or where marks are less than that apart."""
    time %= DAY
    text = f"{time // HOUR:02}:{time // MINUTE % 60:02}"
    micros = f".{time % SECOND:06}" if time % SECOND or least < SECOND else ""
    return text if least >= MINUTE and not time % MINUTE else f"{text}:{time // SECOND % 60:02}{micros}"


def utc(time):
    """The day and the time of day."""
    return f"{date(time)} {hour(time)}"


def lasted(length):
    """How long something lasted, by its two greatest units, cut down."""
    if length < MINUTE:
        return f"{length // SECOND}.{length % SECOND:06}".rstrip("0").rstrip(".") + " s"
    for place, (name, unit) in enumerate(UNITS):
        if length >= unit:
            below, least = UNITS[place + 1]
            rest = length % unit // least
            return f"{length // unit:,} {name}" + (f" {rest} {below}" if rest else "")
    return None


def marks(begin, end, most):
    """The times of at most so many marks between two times, and how far they are apart."""
    step = next(step for step in STEPS if (end - begin) // step < most)
    return list(range(-(-begin // step) * step, end + 1, step)), step
