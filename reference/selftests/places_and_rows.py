"""The places of telegrams, and the rows of the listing."""

import line
import listing
import making
import places
import records
import telegrams
from refusals import outcome
from selftests.checking import WRAP, any_record, good_record, read, same


def digits_and_places(dice, rounds):
    """A good record's digits make its telegram, and are found in it; a layout is found from the length."""
    for _ in range(rounds):
        record = good_record(dice)
        telegram, row, digits = making.telegram_of(record, False), places.row_of(record.layout), places.digits_of(record)
        buffer = bytearray(len(telegram))
        places.render(row, digits, buffer)
        same("places", buffer, telegram)
        same("places", places.record_of(record.layout, digits), record)
        same("places", telegrams.layout_by_length(telegram), record.layout)
        damaged = making.damaged(dice, telegram)
        if len(damaged) == len(telegram) and len(damaged) != 8:
            number, got = outcome(places.scan, row, damaged)[1], read(damaged, control=False)
            if number is not None or got in (3, 4):
                same("places", number, got)


def rows(dice, rounds):
    """A row goes into a buffer that has room for it, and into no shorter one. A record that no telegram carries has none."""
    for _ in range(rounds):
        result = dice.choice([any_record(dice), dice.randrange(1, 12)])
        event = line.Event(dice.randrange(WRAP), 18, result)
        text = listing.row(event)
        buffer = bytearray(b"?" * dice.choice([len(text) - 1, len(text), len(text) + 3]))
        used, number = outcome(listing.write_row, event, buffer)
        bad = None if isinstance(result, int) else outcome(records.check_record, result)[1]
        same("rows", number, bad or (13 if len(buffer) < len(text) else None))
        same("rows", bytes(buffer), (text if used else b"").ljust(len(buffer), b"?"))
