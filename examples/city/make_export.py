#!/usr/bin/env python3
"""Prints a made-up export, the same text for the same words: of incidents, in the layout of a large city's crime portal,
or of a week's calls, each with its duration.

make_export.py incidents 4200 > export.csv
make_export.py calls 400 > calls/calls.csv

What is put in the incidents, so that a picture of it can be judged:
- a market at 41.9371, -87.8053, in the sparse north-west, around which every 18th incident is a theft, most within 300 m;
- Saturdays and Sundays with about half the incidents of a working day;
- a storm on the weekend of 10 and 11 February 2024, with next to none;
- more thefts in the centre, more batteries in the south; one row of 73 has no coordinates.

A call on Sunday is three times as long as another, one of twelve was not answered and has 0 seconds, and one of 73 has no
coordinates.
"""
import csv
import datetime
import math
import random
import sys
from itertools import accumulate

SOUTH, NORTH, WEST = 41.65, 42.02, -87.85
MARKET = (41.9371, -87.8053)
FIRST_DAY, DAYS = datetime.date(2024, 1, 1), 91
STORM = (datetime.date(2024, 2, 10), datetime.date(2024, 2, 11))
CALLS_FROM = datetime.date(2024, 3, 4)
HOURS = [5, 4, 3, 2, 1, 1, 2, 3, 5, 6, 6, 7, 9, 8, 8, 9, 10, 11, 12, 11, 10, 9, 8, 7]
HOUR_SUMS = list(accumulate(HOURS))

# latitude, longitude, spread in km, weight
QUARTERS = [
    (41.881, -87.636, 1.3, 24),
    (41.955, -87.665, 2.2, 14),
    (41.884, -87.748, 2.2, 13),
    (41.768, -87.640, 2.4, 18),
    (41.795, -87.712, 2.0, 9),
    (41.690, -87.632, 2.2, 8),
]

QUARTER_SUMS = list(accumulate(quarter[3] for quarter in QUARTERS))

# name, weight, its code, its code at the FBI, descriptions
THEFT = ("THEFT", 26, "0820", "06", ["$500 AND UNDER", "OVER $500", "RETAIL, $500 AND UNDER", 'FROM VEHICLE, "SMASH AND GRAB"'])
BATTERY = ("BATTERY", 20, "0460", "08B", ["SIMPLE", "DOMESTIC, SIMPLE", "AGGRAVATED: KNIFE, CUTTING INSTRUMENT"])
OTHERS = [
    ("CRIMINAL DAMAGE", 12, "1320", "14", ["TO VEHICLE", "TO PROPERTY", 'CRIMINAL DEFACEMENT, "TAGGING"']),
    ("ASSAULT", 9, "0560", "08A", ["SIMPLE", "AGGRAVATED: HANDGUN"]),
    ("MOTOR VEHICLE THEFT", 8, "0910", "07", ["AUTOMOBILE", "TRUCK, BUS, MOTOR HOME"]),
    ("DECEPTIVE PRACTICE", 7, "1130", "11", ["FRAUD OR CONFIDENCE GAME", 'FORGERY, "BAD CHECK" OVER $10,000']),
    ("BURGLARY", 5, "0610", "05", ["FORCIBLE ENTRY", "UNLAWFUL ENTRY"]),
    ("ROBBERY", 4, "0320", "03", ["STRONG ARM, NO WEAPON", "ARMED: HANDGUN"]),
    ("OTHER OFFENSE", 6, "1310", "26", ["HARASSMENT BY TELEPHONE", "OTHER"]),
    ("NARCOTICS", 3, "1811", "18", ["POSSESS, 30 GRAMS OR LESS"]),
]
PLACES = [("STREET", 30), ("APARTMENT", 22), ("RESIDENCE", 16), ("SIDEWALK", 9), ("SMALL RETAIL STORE", 8), ("RESTAURANT", 5),
          ("PARKING LOT / GARAGE (NON RESIDENTIAL)", 4), ("SCHOOL, PUBLIC, BUILDING", 3), ("CTA TRAIN", 2), ("", 1)]
STREETS = ["ELM ST", "LAKE AVE", "MILL RD", "KING DR", "RIVER ST", "PARK PL", "QUARRY AVE", "STATION ST"]

INCIDENT = ("ID,Case Number,Date,Block,IUCR,Primary Type,Description,Location Description,Arrest,Domestic,Beat,District,Ward,"
            "Community Area,FBI Code,X Coordinate,Y Coordinate,Year,Updated On,Latitude,Longitude,Location").split(",")
CALL = "Call,Started,Kind,Seconds,Cell Latitude,Cell Longitude".split(",")


class Dice:
    """Draws from Python's generator by `random` alone, whose numbers are the same in each version of Python."""

    def __init__(self, seed):
        self.draw = random.Random(seed).random

    def below(self, number):
        return int(self.draw() * number)

    def pick(self, items, sums):
        drawn = self.draw() * sums[-1]
        return items[next(i for i, total in enumerate(sums) if drawn < total)]

    def normal(self):
        return math.sqrt(-2 * math.log(1 - self.draw())) * math.cos(2 * math.pi * self.draw())


def shore(latitude):
    """The longitude of the lake's shore, which is the city's eastern end."""
    return -87.53 - (latitude - SOUTH) / (NORTH - SOUTH) * 0.14


def around(dice, latitude, longitude, kilometres):
    north = dice.normal() * kilometres / 111.2
    east = dice.normal() * kilometres / (111.2 * math.cos(math.radians(latitude)))
    return latitude + north, longitude + east


def place_of(dice):
    """A place in the city: in a quarter, or, for one of seven, anywhere."""
    while True:
        if dice.below(7) == 0:
            spot = SOUTH + dice.draw() * (NORTH - SOUTH), WEST + dice.draw() * 0.32
        else:
            latitude, longitude, kilometres, _ = dice.pick(QUARTERS, QUARTER_SUMS)
            spot = around(dice, latitude, longitude, kilometres)
        if SOUTH <= spot[0] < NORTH and WEST <= spot[1] < shore(spot[0]):
            return spot


def district_of(latitude, longitude):
    """One of twelve: four rows from the north, each with three from the west edge to the shore."""
    row = 3 - int((latitude - SOUTH) / (NORTH - SOUTH) * 4)
    column = int((longitude - WEST) / (shore(latitude) - WEST) * 3)
    return 3 * row + column + 1


def day_weight(day):
    if day in STORM:
        return 0.06
    return {5: 0.55, 6: 0.45}.get(day.weekday(), 1)


def time_on(dice, day):
    hour = dice.pick(range(24), HOUR_SUMS)
    return datetime.datetime(day.year, day.month, day.day, hour, 5 * dice.below(12))


def type_of(dice, latitude):
    theft = THEFT[1] + (14 if 41.85 < latitude < 41.91 else 0)
    battery = BATTERY[1] + (16 if latitude < 41.80 else 0)
    kinds = [THEFT, BATTERY] + OTHERS
    return dice.pick(kinds, list(accumulate([theft, battery] + [kind[1] for kind in OTHERS])))


def incidents(number):
    dice = Dice(2024)
    days = [FIRST_DAY + datetime.timedelta(days=i) for i in range(DAYS)]
    day_sums = list(accumulate(day_weight(day) for day in days))
    place_sums, places = list(accumulate(weight for _, weight in PLACES)), [name for name, _ in PLACES]
    for i in range(number):
        market = i % 18 == 5
        latitude, longitude = around(dice, *MARKET, 0.25) if market else place_of(dice)
        kind, _, code, fbi, descriptions = THEFT if market else type_of(dice, latitude)
        where = "SMALL RETAIL STORE" if market else dice.pick(places, place_sums)
        time = time_on(dice, dice.pick(days, day_sums))
        district = district_of(latitude, longitude)
        east, north = round(1150000 + (longitude + 87.7) * 272000), round(1890000 + (latitude - 41.85) * 364800)
        block = f"{dice.below(90) + 10:03}XX {'NSEW'[dice.below(4)]} {STREETS[dice.below(len(STREETS))]}"
        known = i % 73 != 40
        yield [
            13300000 + i, f"JH{100000 + i}", time.strftime("%m/%d/%Y %I:%M:%S %p"), block, code, kind,
            descriptions[dice.below(len(descriptions))], where, "true" if dice.below(8) == 0 else "false",
            "true" if dice.below(6) == 0 else "false", f"{district:02}{1 + dice.below(3)}{1 + dice.below(4)}",
            f"{district:03}", 1 + dice.below(50), 1 + dice.below(77), fbi,
            east if known else "", north if known else "", time.year, "04/08/2024 03:40:59 PM",
            f"{latitude:.9f}" if known else "", f"{longitude:.9f}" if known else "",
            f"({latitude:.9f}, {longitude:.9f})" if known else "",
        ]


def calls(number):
    dice = Dice(411)
    for i in range(number):
        latitude, longitude = place_of(dice)
        time = time_on(dice, CALLS_FROM + datetime.timedelta(days=dice.below(7)))
        kind, mean = [("voice", 150), ("voice", 150), ("voice", 150), ("video", 500)][dice.below(4)]
        seconds = 1 + int(-math.log(1 - dice.draw()) * mean * (3 if time.weekday() == 6 else 1))
        known = i % 73 != 40
        yield [
            500000 + i, time.isoformat(), kind, 0 if dice.below(12) == 0 else seconds,
            f"{latitude:.6f}" if known else "", f"{longitude:.6f}" if known else "",
        ]


def main():
    header, rows = {"incidents": (INCIDENT, incidents), "calls": (CALL, calls)}[sys.argv[1]]
    out = csv.writer(sys.stdout, lineterminator="\n")
    out.writerow(header)
    out.writerows(rows(int(sys.argv[2])))


main()
