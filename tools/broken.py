"""Broken records, each with its name: records cut behind every tenth byte, and a record with each byte changed."""
RECORDS = 200
CHANGES = (0, 10, 13, 32, 255)


def cuts(records):
    for number, record in enumerate(records):
        for end in range(0, len(record), 10):
            yield f"record {number + 1} cut behind byte {end}", record[:end]


def changed(record):
    for place in range(len(record)):
        for byte in CHANGES:
            yield f"byte {place + 1} changed to {byte}", record[:place] + bytes([byte]) + record[place + 1:]
