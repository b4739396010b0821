/* Numbers and steps as people read them; the same words as desk/season_page/words.py. */

function grouped(number) {
  return String(number).replace(/\B(?=(\d{3})+$)/g, ',');
}

/* A whole number of thousandths, with all three decimals. */
function thousandths(number) {
  const size = Math.abs(number), part = size % 1000;
  return (number < 0 ? '-' : '') + grouped((size - part) / 1000) + '.' + String(part).padStart(3, '0');
}

function kwh(joules) {
  return thousandths(Math.floor((joules + 1800) / 3600));
}

/* A unit behind a number. */
const WORDS = {
  kW: watts => thousandths(watts) + ' kW',
  A: milliamperes => thousandths(milliamperes) + ' A',
  kWh: joules => kwh(joules) + ' kWh',
  steps: count => grouped(count) + (count === 1 ? ' step' : ' steps'),
};

/* The unit of measures and targets, and what a step is that is outside. */
function measureUnit(season) {
  return season.current ? 'A' : 'kW';
}

function beyondWord(season) {
  return season.mode === 2 ? 'outside' : season.charging ? 'below' : 'above';
}

/* What a value is divided by where it is drawn. */
const SCALE = { kW: 1000, A: 1000, kWh: 3600000, steps: 1 };

function ordinal(count) {
  const ends = ['th', 'st', 'nd', 'rd'];
  const end = Math.floor(count / 10) % 10 === 1 ? 'th' : ends[count % 10] || 'th';
  return grouped(count) + end;
}

function stepWords(step) {
  return 'step ' + grouped(step) + ', the ' + ordinal(step + 1) + ' row';
}

/* Seconds in the words that they fill. */
function lasting(seconds) {
  const parts = [[86400, 'd'], [3600, 'h'], [60, 'min'], [1, 's']], words = [];
  for (const [size, name] of parts) {
    const count = Math.floor(seconds / size);
    seconds -= count * size;
    if (count > 0) words.push(grouped(count) + '\u00a0' + name);
  }
  return words.length === 0 ? '0' : words.join(' ');
}

/* A tick of an axis: no more decimals than tell it from the next. */
function tickWords(value, distance) {
  const decimals = Math.max(0, Math.min(6, Math.ceil(-Math.log10(distance) - 1e-9)));
  const [whole, part] = Math.abs(value).toFixed(decimals).split('.');
  const text = grouped(whole) + (part === undefined ? '' : '.' + part);
  return value < 0 && Number(value.toFixed(decimals)) !== 0 ? '\u2212' + text : text;
}
