"""Parts of an SDfile that are labelled or read on their own, on whichever machine or processor."""
import collections
import concurrent.futures
import multiprocessing
import signal

import sdf
import tables

labellers = {}


def parts_of(file, size):
    """Whole records of at least some bytes together, as the number of the first one, from 1, and a list.

    If the file has a fault, the records before it come first.
    """
    first, records, length, fault = 1, [], 0, None
    try:
        for record in sdf.records(file):
            records.append(record)
            length += len(record)
            if length >= size:
                yield first, records
                first, records, length = first + len(records), [], 0
    except sdf.Fault as found:
        fault = found
    if records:
        yield first, records
    if fault:
        raise fault


def in_order(function, parts, jobs):
    """What a function makes of each part, in the order of the parts, by as many processes as there are jobs."""
    if jobs == 1:
        yield from map(function, parts)
        return
    # an interrupt ends the run, which ends its workers
    ignored = signal.SIGINT, signal.SIG_IGN
    context = multiprocessing.get_context("fork")
    with concurrent.futures.ProcessPoolExecutor(jobs, context, signal.signal, ignored) as workers:
        yield from results_of(workers, function, parts, 2 * jobs)


def results_of(workers, function, parts, most):
    """The results of parts in their order, of which so many at most are on their way; then the fault of the file."""
    waiting, fault = collections.deque(), None
    try:
        for part in parts:
            waiting.append(workers.submit(function, part))
            if len(waiting) > most:
                yield waiting.popleft().result()
    except sdf.Fault as found:
        fault = found
    while waiting:
        yield waiting.popleft().result()
    if fault:
        raise fault


def rows_of(part, nodes, rule_1b):
    """The rows of a part's labels, by the module for Python; a process makes one labeller."""
    import cip

    if (nodes, rule_1b) not in labellers:
        labellers[nodes, rule_1b] = cip.Labeller(nodes=nodes, rule_1b=rule_1b)
    labeller, (first, records) = labellers[nodes, rule_1b], part
    rows = []
    for number, record in enumerate(records, first):
        head = {"record": number, "name": sdf.name(record)}
        rows += [{**head, **row} for row in tables.label_rows(sdf.answer_of(labeller.values(record)))]
    return rows
