"""Days and weeks. Day 0 is Monday, 5 January 1970, so that the importer's weeks, a day divided by 7, begin on Mondays."""
import datetime
import re

DAY_0 = datetime.date(1970, 1, 5)
LAST_DAY = 65535


def date(day):
    return DAY_0 + datetime.timedelta(days=day)


def monday(week):
    """The first day of a week."""
    return date(7 * week)


def day_of(typed):
    """The day of an ISO date. Raises ValueError with a sentence."""
    try:
        if not re.fullmatch('[0-9]{4}-[0-9]{2}-[0-9]{2}', typed):
            raise ValueError
        day = (datetime.date.fromisoformat(typed) - DAY_0).days
    except ValueError:
        raise ValueError('is no date such as 2026-03-31.') from None
    if not 0 <= day <= LAST_DAY:
        raise ValueError(f'is not from {date(0)} to {date(LAST_DAY)}.')
    return day
