#!/usr/bin/env python3
"""Writes the example cases: week.csv, month.csv and units/*.csv, into the folder that is given, or into this script's own.

The prices are made up, and the same on every run. They have the shape of a market with much solar power in July 2024: cheap nights, a trough at
noon that goes below zero on weekends, a peak in the evening, three hot days with spikes, and noise. A price is in cents per MWh, one for each
quarter-hour.
"""

import sys
from pathlib import Path

DAYS = 31  # July 2024, which begins on a Monday
QUARTERS = 96

# $/MWh at each full hour of a weekday
HOURS = [34, 32, 31, 30, 31, 35, 42, 46, 40, 31, 24, 19, 16, 15, 18, 25, 38, 56, 78, 92, 84, 66, 49, 40]
# $/MWh less on a weekend, when factories stand still and the sun shines
TROUGH = [0] * 9 + [6, 14, 21, 24, 22, 15, 7] + [0] * 8
HOT_DAYS = {10: 1.5, 11: 1.9, 12: 1.6}  # 11 to 13 July, counted from 0
# (day, hour): dollars on top, for half an hour
SPIKES = {(10, 19): 240, (11, 18): 410, (11, 20): 650, (12, 19): 180, (16, 19): 55, (17, 20): 90, (24, 18): 130}

NAMES = ["block", "pmin", "pmax", "mot", "mdt", "was", "held", "vec", "mlc", "suc", "starts", "hours", "mwh"]
DATE = ["year", "month", "day", "window"]

# 50 MW in blocks of 5 MW, at least 20 MW; on for 5 hours at least, off for 3; off for a day before.
# $64.00 per MWh above 20 MW, $940.00 per hour at 20 MW, $600.00 for a start.
UNIT = dict(block=5, pmin=4, pmax=10, mot=20, mdt=12, was=0, held=96, vec=6400, mlc=94000, suc=60000,
            starts="none", hours="none", mwh="none")

DAYTIME = sum(2 ** hour for hour in range(7, 22))  # 07:00 to 22:00


class Noise:
    """A linear congruential generator, so that the numbers do not depend on the Python at hand."""

    def __init__(self, seed):
        self.state = seed

    def between(self, low, high):
        self.state = (self.state * 6364136223846793005 + 1442695040888963407) % 2 ** 64
        return low + (self.state >> 33) % (high - low + 1)


def between_hours(table, hour, part):
    here, there = table[hour], table[(hour + 1) % 24]
    return here + (there - here) * part / 4


def price(day, quarter, noise):
    hour, part = divmod(quarter, 4)
    dollars = between_hours(HOURS, hour, part)
    weekend = day % 7 >= 5
    if weekend:
        dollars = dollars * 0.8 - between_hours(TROUGH, hour, part)
    if hour >= 15:
        dollars *= HOT_DAYS.get(day, 1)
    if part < 2:
        dollars += SPIKES.get((day, hour), 0)
    return round(dollars * 100) + noise.between(-400, 400)


def july():
    noise = Noise(2024)
    drift = 0
    prices = []
    for day in range(DAYS):
        drift = drift // 2 + noise.between(-300, 300)
        prices += [price(day, quarter, noise) + drift for quarter in range(QUARTERS)]
    return prices


def case(prices, first_day=None, window=None, **changed):
    values = {**UNIT, **changed}
    names = list(NAMES)
    if window is not None:
        names += DATE
        values.update(year=2024, month=7, day=first_day + 1, window=window)
    head = ",".join(names) + "\n" + ",".join(str(values[name]) for name in names)
    return head + "\n\nprice\n" + "".join(f"{price}\n" for price in prices)


def main():
    folder = Path(sys.argv[1]) if len(sys.argv) > 1 else Path(__file__).parent
    (folder / "units").mkdir(parents=True, exist_ok=True)
    month = july()
    week = month[14 * QUARTERS:21 * QUARTERS]  # Monday 15 to Sunday 21 July
    files = {
        "week.csv": case(week, first_day=14, window=DAYTIME, starts=5, hours=25),
        "month.csv": case(month, starts=20, hours=120),
        "units/starts.csv": case(week, starts=4),
        "units/hours.csv": case(week, hours=24),
        "units/mwh.csv": case(week, mwh=800),
        "units/window.csv": case(week, first_day=14, window=DAYTIME),
        "units/starts-hours.csv": case(week, starts=4, hours=24),
    }
    for name, text in files.items():
        (folder / name).write_text(text)


if __name__ == "__main__":
    main()
