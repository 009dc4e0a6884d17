"""Source document 000, tables 2 (acyclic digraphs) and 3 (relations): outside vectors for the efficiency, as they are printed there.

Three rows are left out, because they are misprinted: in table 2, n = 6 lacks the last digit of labelled; in table 3, n = 11 and n = 12 have
percentages that their own counts do not give.
"""

# table, n, labelled, unlabelled, allowed, effic in percent
ROWS = [
    (2, 3, 25, 6, 8, "89.47"),
    (2, 4, 543, 31, 64, "93.55"),
    (2, 5, 29281, 302, 1024, "97.51"),
    (2, 7, 1138779265, 243668, 2097152, "99.84"),
    (3, 8, 102528, 303, 1057, "99.26"),
    (3, 9, 1327360, 1119, 3828, "99.80"),
    (3, 10, 52494848, 5479, 38160, "99.94"),
]


def hundredths(percent: str) -> int:
    """A percentage with two decimals, in hundredths of a percent."""
    whole, decimals = percent.split(".")
    assert len(decimals) == 2
    return int(whole + decimals)
