/* The charts over time but for the meter: where their values are from. */

/* What is stored, between a reserve and a rated energy: of the fleet, or of a battery. */
class Store {
  constructor(holder) {
    this.holder = holder;
  }

  static series(words) {
    return [{ key: 'store', name: words, colour: 'net', look: 'area', draw: {} },
      { key: 'rated', name: 'rated', colour: 'measure', look: 'dash', isStill: true },
      { key: 'reserve', name: 'reserve', colour: 'outside', look: 'dash', isStill: true }];
  }

  rows() {
    return storedRows(this.holder.start, columnOf(this.holder, 'store'));
  }

  room() {
    return [0, this.holder.rated / SCALE.kWh * 1.06];
  }

  texts(step) {
    return { store: WORDS.kWh(columnOf(this.holder, 'store')[step]), ...this.still() };
  }

  still() {
    return { rated: WORDS.kWh(this.holder.rated), reserve: WORDS.kWh(this.holder.reserve) };
  }

  under(context, area, graph) {
    across(context, area, graph, this.holder.rated / SCALE.kWh, 'measure');
    across(context, area, graph, this.holder.reserve / SCALE.kWh, 'outside');
  }
}

/* Columns that last for a step, in one unit. */
class Columns {
  constructor(unit, steps, columns, marks) {
    Object.assign(this, { unit, steps, columns, marks });
  }

  rows() {
    const scale = SCALE[this.unit];
    return lastingRows(this.steps, Object.values(this.columns).map(column => step => column[step] / scale));
  }

  room() {
    return roomFor(values([...Object.values(this.columns), [0]], SCALE[this.unit]));
  }

  texts(step) {
    const told = {};
    for (const [key, column] of Object.entries(this.columns)) told[key] = WORDS[this.unit](column[step]);
    return told;
  }
}

/* What is asked is a broad line behind what is given: where it is seen beside that, the two differ. */
const REQUESTS = [
  { key: 'request', name: 'request', colour: 'asked', look: 'broad', draw: { ...LASTING, strokeWidth: 4.5 } },
  { key: 'power', name: 'power (positive when it gives)', short: 'power', colour: 'net', look: 'line', draw: LASTING },
];
const LOSSES = [
  { key: 'loss', name: 'fleet', colour: 'loss', look: 'line', draw: LASTING },
  { key: 'own', name: 'the chosen battery', colour: 'measure', look: 'dash', draw: LASTING },
];
const ROOF = [
  { key: 'dc', name: 'DC power of the array', colour: 'measure', look: 'dash', draw: LASTING },
  { key: 'roof', name: 'power', colour: 'sun', look: 'line', draw: LASTING },
];

function batteryColumns(season, battery) {
  return new Columns('kW', season.steps, { request: columnOf(battery, 'request'), power: columnOf(battery, 'power') });
}

function lossColumns(season, battery) {
  return new Columns('kWh', season.steps, { loss: columnOf(season, 'loss'), own: columnOf(battery, 'loss') });
}

/* Of one inverter it is also told whether it is on. */
function roofColumns(season, inverter) {
  const on = inverter.on === undefined ? null : columnOf(inverter, 'on');
  const marks = on === null ? undefined : step => [on[step] === 1 ? 'the inverter is on' : 'the inverter is off'];
  return new Columns('kW', season.steps, { dc: columnOf(inverter, 'dc'), roof: columnOf(inverter, 'power') }, marks);
}
