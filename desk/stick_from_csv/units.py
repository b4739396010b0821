"""The units of the log's columns: as the site file says, or as the header has them in brackets; both must agree."""

import re

from .words import Refused, joined, kept, quoted

BRACKETS = re.compile(r'[\[(]([^\[\]()]*)[\])]')

# Units as headers have them. Those that no column of a stick can have are here too: their columns are the wrong ones.
SPELLINGS = {
    'kW': ('kw',), 'W': ('w', 'watt'), 'MW': ('mw',), 'kWh': ('kwh',), 'Wh': ('wh',), 'MWh': ('mwh',),
    'A': ('a', 'amp'), 'mA': ('ma',), 'kVA': ('kva',), 'VA': ('va',), 'kvar': ('kvar',), 'var': ('var',),
    'kW/m2': ('kw/m2', 'kw/m²', 'kw/m^2', 'kw/qm'), 'W/m2': ('w/m2', 'w/m²', 'w/m^2', 'w/qm'),
    '°C': ('°c', 'c', 'degc', 'deg c', 'celsius'), '°F': ('°f', 'f', 'degf'), 'K': ('k',),
    'V': ('v', 'volt'), 'kV': ('kv',), 'per unit': ('pu', 'p.u.', 'per unit'), '%': ('%',),
}
UNIT_OF = {spelling: unit for unit, spellings in SPELLINGS.items() for spelling in spellings}


def bracketed(name):
    """The unit that a column's name has in brackets, or None."""
    for inner in reversed(BRACKETS.findall(name)):
        unit = UNIT_OF.get(inner.strip().casefold())
        if unit:
            return unit
    return None


def unit_of(table, role, key, said, allowed):
    """The unit of a role's columns."""
    places = table.places[role]
    found = {}
    for place in places:
        unit = bracketed(table.names[place])
        if unit:
            found.setdefault(unit, table.column(place))
    for unit, column in found.items():
        if unit not in allowed:
            raise Refused(table.name, f'The column {column} is in {unit} by its name, and for a stick it must be in '
                                      f'{joined(allowed, "or")}. Is another column meant?')
        if said and unit != said:
            raise Refused(table.name, f'The column {column} is in {unit} by its name, and in {said} by {key} in [log]: '
                                      'correct the one that is wrong.')
    if said:
        return said
    if len(found) > 1:
        raise Refused(table.name, f'By their names the columns {joined(found.values())} are in {joined(found)}: they '
                                  'must have one unit.')
    if found:
        return next(iter(found))
    if len(allowed) == 1:
        return allowed[0]
    raise Refused(table.name, f'Nothing says the unit of the column {table.column(places[0])}: say in [log] '
                              f'{joined((kept(f"{key} = {quoted(unit)}") for unit in allowed), "or")}.')
