"""The stick's bytes, field by field as docs/LAYOUTS.md lays them out; numbers have their high byte first."""

import struct

POINTS = 16


def field(tag, value=b''):
    return struct.pack('>BH', tag, len(value)) + value


def fleet(edition, units, seconds):
    return field(0x01, struct.pack('>BBI', edition, units, seconds))


def unit(edition, of):
    value = struct.pack('>QQQIIIiHHHHB', of.rated, of.reserve, of.stored, of.rating, of.kva, of.idle_loss,
                        of.var_request, of.weight, of.inverter, of.charge, of.discharge, of.priority)
    if edition >= 2:
        value += struct.pack('>II', of.provide, of.absorb)
    return field(0x02, value)


def settings(of):
    return field(0x03, struct.pack('>BiIHB', of.mode, of.target, of.band, of.factor, of.phase))


def power(three):
    return field(0x04, struct.pack('>ddd', *three))


def missing():
    return field(0x05)


def inverter(of):
    value = struct.pack('>IIHHHiB', of.array, of.kva, of.cut_in, of.cut_out, of.limit, of.var_request, of.priority)
    return field(0x06, value) + curve(of.temperature) + curve(of.efficiency)


def curve(points):
    value = struct.pack('>B', len(points))
    for x, y in points + [(0, 0)] * (POINTS - len(points)):
        value += struct.pack('>ii', x, y)
    return field(0x07, value)


def weather(two):
    return field(0x08, struct.pack('>dd', *two))


def current(three):
    return field(0x09, struct.pack('>ddd', *three))


def connections(units):
    return field(0x0A, b''.join(struct.pack('>BH', of.phases, of.volts) for of in units))


def function(of):
    return field(0x0B, struct.pack('>B', of.base)) + curve(of.curve)


def voltage(of):
    return field(0x0C, struct.pack('>H', of))


def end(steps):
    return field(0x7F, struct.pack('>I', steps))


def before_steps(site, seconds):
    """All fields that stand before the steps."""
    fields = [fleet(site.edition, len(site.units), seconds)]
    fields += [unit(site.edition, of) for of in site.units]
    fields.append(settings(site.settings))
    if site.is_connected():
        fields.append(connections(site.units))
    fields += [inverter(of) for of in site.inverters]
    if site.function is not None:
        fields.append(function(site.function))
    return b''.join(fields)


def step(of, reading):
    """A step: its weather and its voltage, if it has them, and the reading that closes it."""
    fields = b'' if of.weather is None else weather(of.weather)
    if of.voltage is not None:
        fields += voltage(of.voltage)
    return fields + (missing() if of.reading is None else reading(of.reading))


def stick(site, seconds, steps):
    """All bytes of a stick."""
    reading = current if site.by_current() else power
    return b''.join((before_steps(site, seconds), *(step(of, reading) for of in steps), end(len(steps))))
