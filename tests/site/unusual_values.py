"""Unusual values of a stand-in: by object, the property, its octets, and its text."""

import struct

from stand_ins import an_object, bits, enumerated, real, string, tagged, unsigned

# Days of a week, each with two changes; the last day has none.
DAY = b"\x0e\xb4\x06\x1e\0\0" + real("41ac0000") + b"\xb4\x12\0\0\0\0\x0f"
WEEK = DAY * 2 + b"\x0e\x0f"
SHOWN_WEEK = "[0]{06:30:00.00, 21.5, 18:00:00.00, null}, " * 2 + "[0]{}"

DAYS = ("Mon", "Tue", "Wed", "Thu", "Fri", "Sat", "Sun")
SHOWN_DAYS = ", ".join("%s {06:30:00.00, 21.5, 18:00:00.00, null}" % it for it in DAYS)
# Entries of a calendar (clause 21: CalendarEntry): a date, a range of dates, the last Monday of each even month.
DATES = b"\x0c\x7c\x0a\x1f\x04" + b"\x1e" + tagged(10, b"\x7c\x0c\x18\x02") + tagged(10, b"\x7d\x01\x06\x01")
DATES += b"\x1f" + b"\x2b\x0e\x06\x01"
SHOWN_DATES = "2024-10-31, [1]{2024-12-24, 2025-01-06}, month even, days last 7, Mon"
SPECIAL = b"\x0e\x0c\xff\x0c\x19\xff\x0f" + b"\x2e\xb4\x06\x1e\0\0" + real("41ac0000") + b"\x2f\x39\x10"

ODD = {
    (0, 1): [
        (77, string("Öl,\x1b[2J"), r"Öl,\x1b[2J"),
        (85, real("7fc00000"), "no number: NaN"),
        (111, bits("0100"), "B'0100' (fault)"),
        (117, enumerated(62), "62 (degrees-celsius)"),
    ],
    (0, 2): [
        (36, enumerated(3), "3 (above-the-high-limit)"),
        (45, real("4b18967f"), "9999999"),
        (56, tagged(10, b"\x7c\x0a\x1f\x04"), "2024-10-31"),
        (57, tagged(11, b"\x0c\x1e\0\x05"), "12:30:00.05"),
        (75, an_object(0, 2), "0:2 (analog-input)"),
        (77, string(b"Z\xfcrich", 5), "Zürich"),
        (79, enumerated(0), "0 (analog-input)"),
        (81, b"\x11", "true"),
        (85, real("42290000"), "42.25"),
        (111, bits("1001"), "B'1001' (in-alarm, out-of-service)"),
        (117, enumerated(999), "999"),
        (9998, real("40000000"), "2"),
    ],
    (1, 3): [
        (28, string(b"\xff"), r'"\xff"'),
        (31, string("Rab", 1), '1:"Rab"'),
        (56, tagged(10, b"\xff\x0a\x1f\xff"), "*-10-31"),
        (57, tagged(11, b"\x0c\xff\0\0"), "12:*:00.00"),
        (65, real("ff800000"), "no number: -Inf"),
        (77, string(b"\0Z\0\xfc", 4), "Zü"),
        (85, unsigned(1), "no real: unsigned 1"),
        (87, b"\0" + real("41a00000"), "{null, 20}"),
        (9999, unsigned(62), "62"),
    ],
    (4, 1): [
        (33, real("00000000"), "no integer: real 0"),
        (40, enumerated(7), "no state: 7"),
        (46, string("Aus"), "Aus"),
        (85, enumerated(1), "1 (active)"),
        (104, enumerated(0), "0 (inactive)"),
    ],
    (13, 2): [
        (74, unsigned(2), "2"),
        (77, string("\u202eMode"), r"\u202eMode"),
        (85, unsigned(2), "2"),
        (110, string("At home") + string('a,"b\\'), '{"At home", "a,"b\\"}'),
    ],
    (6, 1): [(23, DATES, SHOWN_DATES)],
    (17, 1): [
        (32, tagged(10, b"\xff\xff\xff\x01") + tagged(10, b"\x7c\x0e\x20\xff"), "{*-*-* Mon, 2024-even-last}"),
        (38, SPECIAL, "[0]{*-12-25}, [2]{06:30:00.00, 21.5}, [3]X'10'"),
        (85, real("40000000"), "2"),
        (123, WEEK, SHOWN_WEEK),
    ],
    (17, 2): [(85, real("40000000"), "2"), (123, DAY * 7, SHOWN_DAYS)],
    (40, 1): [
        (28, string(b"\x03\x52Z\x81rich", 1), "Zürich"),
        (77, string(b"\x03\xa4" + "温度".encode("cp932"), 1), "温度"),
        (85, string(b"\x04\xe4\x80 5", 1), "€ 5"),
    ],
    (39, 1): [(23, b"\x0e\x0f", "[0]{}"), (85, bits("01"), "B'01'")],
    (23, 1): [(45, unsigned(12345678), "12345678"), (85, unsigned(40000000), "40000000")],
    (45, 1): [
        (59, tagged(3, b"\x80\0"), "-32768"),
        (85, tagged(3, b"\xfb"), "-5"),
        (87, b"", "{}"),
    ],
    (46, 1): [
        (22, real("40000000"), "no double: real 2"),
        (45, tagged(5, struct.pack(">d", 20)), "20"),
        (85, tagged(5, struct.pack(">d", 72.3)), "72.3"),
    ],
    (300, 1): [
        (45, real("40000000"), "2"),
        (77, string("A|B"), "A|B"),
        (85, real("40000000"), "2"),
    ],
}
OWN = (75, 77, 79)  # which no property-list has
ODD_VALUES = {(*what, number): octets for what, has in ODD.items() for number, octets, _ in has}
ODD_VALUES.update(
    ((*what, 371), b"".join(enumerated(row[0]) for row in has if row[0] not in OWN))
    for what, has in ODD.items()
)
ODD_VALUES[1, 3, 87, 2] = real("41a00000")
