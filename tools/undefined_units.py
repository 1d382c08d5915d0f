"""The undefined units of records by the module for Python, as lists of words that cip-undefined would write."""
import script
import sdf


def found_in(file, nodes, rule_1b):
    """A list for each record of a file, or None if the module or its library isn't there."""
    try:
        cip = script.module()
        labeller = script.labeller(cip, nodes, rule_1b)
    except sdf.Fault:
        return None
    file.seek(0)
    found, count = {}, 0
    with labeller:
        for count, record in enumerate(sdf.records(file), 1):
            units = units_of(record, labeller, cip.Refused)
            if units:
                found[count] = units
    return (found.get(number, []) for number in range(1, count + 1))


def units_of(record, labeller, refusal):
    """The undefined units of a record; none of one that is refused."""
    try:
        return [words_of(unit) for unit in labeller.undefined(record)]
    except refusal:
        return []


def words_of(unit):
    if unit.state != "open":
        return [unit.unit, unit.state]
    return [unit.unit, "open", unit.rule, str(unit.sphere), "order", *sdf.order_text(unit.order).split()]
