"""The day of the year, the Leitch answer, the request letters."""

import leitch_cases
from cases.one_case import day_of_year_case, leitch_read_case, leitch_write_case, request_case


def leitch_and_request_cases(dice):
    """Dates, bytes and answers, good and wrong."""
    for date in leitch_cases.dates(dice):
        yield day_of_year_case(date)
    for text in leitch_cases.texts(dice):
        yield leitch_read_case(text)
    for room, answer in leitch_cases.writes(dice):
        yield leitch_write_case(answer, room)
    for text in leitch_cases.requests(dice):
        yield request_case(text)
