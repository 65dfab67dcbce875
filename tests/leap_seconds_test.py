"""Holds second 60, at every minute of two years under 50 offsets, to Python's datetime.

    python3 tests/leap_seconds_test.py PROGRAM

PROGRAM is leap_seconds.c with the library: it is given lines of a day and an offset,
and writes each with the times at which second 60 was taken.
"""

import itertools
import os
import subprocess
import sys
from datetime import date, datetime, timedelta, timezone

import harness

FIRST, LAST = date(2023, 1, 1), date(2024, 12, 31)
DAYS = [date.fromordinal(day).isoformat() for day in range(FIRST.toordinal(), LAST.toordinal() + 1)]
OFFSETS = ["Z", "z"] + [sign + size for sign in "+-" for size in [
    "00:00", "00:01", "00:20", "00:59", "01:00", "02:00", "03:30", "04:00", "05:00", "05:30", "05:45", "06:30",
    "08:00", "08:45", "09:30", "10:00", "11:59", "12:00", "12:01", "12:45", "14:00", "18:00", "23:00", "23:59"]]
LINES = list(itertools.product(DAYS, OFFSETS))

MINUTES = range(24 * 60)
TIMES = ["%02d:%02d" % divmod(minute, 60) for minute in MINUTES]
SINCE_MIDNIGHT = [timedelta(minutes=minute) for minute in MINUTES]

# The minutes of UTC in which second 60 is taken, in the years that a written time can reach.
LEAP_MINUTES = {datetime(year, month, day, 23, 59)
                for year in range(FIRST.year - 1, LAST.year + 2) for month, day in [(6, 30), (12, 31)]}

# Under each offset a minute of UTC is written once. The three leap minutes from June 2023 to June 2024 are always written
# in these two years; that of December 2022 is under the offsets from +00:01 on, that of December 2024 under all others.
TAKEN = 4 * len(OFFSETS)

SHOWN = 10      # strings judged wrongly, behind which no more lines are printed


def expected(day, offset):
    """The times of a day that are leap minutes, moved to UTC."""
    zone = "+00:00" if offset in "Zz" else offset
    midnight = datetime.fromisoformat(day + "T00:00" + zone).astimezone(timezone.utc).replace(tzinfo=None)
    return [time for time, since in zip(TIMES, SINCE_MIDNIGHT) if midnight + since in LEAP_MINUTES]


def wrong_strings(words, wanted):
    """How many strings of a line were judged wrongly: all of them where the line is another day's or offset's."""
    if words == wanted:
        return 0
    if words[:2] != wanted[:2]:
        return len(TIMES)
    return max(1, len(set(words) ^ set(wanted)))


def compare(written):
    """How many strings were judged rightly and wrongly, and how many must be taken. A line that is not there is wrong."""
    passed = failed = taken = 0
    for (day, offset), line in zip(LINES, itertools.chain(written, itertools.repeat(""))):
        times = expected(day, offset)
        wrong = wrong_strings(line.split(), [day, offset, *times])
        if wrong and failed < SHOWN:
            print("wanted: %s\nfound:  %s" % (" ".join([day, offset, *times]), line))
        passed += len(TIMES) - wrong
        failed += wrong
        taken += len(times)
    return passed, failed, taken


def main():
    if len(sys.argv) != 2:
        sys.exit(__doc__)
    asked = "".join("%s %s\n" % line for line in LINES)
    found = subprocess.run(os.path.abspath(sys.argv[1]), input=asked, stdout=subprocess.PIPE, text=True)
    written = found.stdout.splitlines()
    passed, failed, taken = compare(written)
    _, more = harness.count_all([("status", found.returncode == 0), ("a line for each", len(written) == len(LINES)),
                                 ("strings that must be taken", taken == TAKEN)])
    return harness.finish(passed, failed + more)


if __name__ == "__main__":
    sys.exit(main())
