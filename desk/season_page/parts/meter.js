/* The meter over time: the measure, the net measure, the target and its band, and the steps that are marked. */

/* The place of the first of some rising numbers that is not below another. */
function firstFrom(numbers, least) {
  let low = 0, high = numbers.length;
  while (low < high) {
    const middle = (low + high) >> 1;
    if (numbers[middle] < least) low = middle + 1;
    else high = middle;
  }
  return low;
}

/* Each of some steps that is shown, with the pixels that it has. */
function eachShown(steps, chart, deed) {
  for (let at = firstFrom(steps, Math.floor(chart.view.from)); at < steps.length && steps[at] < chart.view.to; at++) {
    const left = Math.max(chart.area().x, chart.xOf(steps[at]));
    deed(left, Math.max(1, chart.xOf(steps[at] + 1) - left), steps[at]);
  }
}

class Meter {
  constructor(season) {
    this.season = season;
    this.unit = measureUnit(season);
    this.measure = columnOf(season, 'measure');
    this.net = season.net === null ? null : columnOf(season, 'net');
    this.missing = columnOf(season, 'missing');
    this.outside = columnOf(season, 'outside');
    this.netOutside = columnOf(season, 'netOutside');
    this.isMissing = new Set(this.missing);
    this.isOutside = new Set(this.outside);
    this.isNetOutside = new Set(this.netOutside);
    this.beyond = beyondWord(season);
  }

  series() {
    const measure = { key: 'measure', name: 'measure', colour: 'measure', look: 'line',
      draw: { ...LASTING, strokeWidth: 1.2 } };
    const net = { key: 'net', name: 'net measure (less the fleet\u2019s power)', short: 'net measure', colour: 'net',
      look: 'line', draw: { ...LASTING } };
    /* The dots are on the line by which the season is judged. */
    (this.net ? net : measure).draw.plotter = drawing => {
      plotLine(drawing);
      this.dots(drawing);
    };
    const name = this.season.mode === 2 ? 'minus the target, and band' : 'target and band';
    const marked = this.beyond + ' by more than half the band';
    return [measure, ...this.net ? [net] : [],
      { key: 'target', name, colour: 'target', look: 'band', isStill: true },
      { key: 'outside', name: marked, colour: 'outside', look: 'dots', isStill: true },
      { key: 'fleet', name: 'fleet\u2019s power', colour: 'measure', look: 'none' }];
  }

  rows() {
    const scale = SCALE[this.unit], given = column => step => (this.isMissing.has(step) ? null : column[step] / scale);
    return lastingRows(this.season.steps, this.net ? [given(this.measure), given(this.net)] : [given(this.measure)]);
  }

  room() {
    const { line, band } = this.season, seen = this.net ? [this.measure, this.net] : [this.measure];
    const shown = seen.map(column => column.filter((_, step) => !this.isMissing.has(step)));
    let ends = endsOf(values(shown, SCALE[this.unit]));
    /* Target and band are shown too, unless all else would become flat. */
    for (const edge of [line, line - band / 2, line + band / 2]) {
      const more = endsOf([...ends.filter(Number.isFinite), edge / SCALE[this.unit]]), height = ends[1] - ends[0];
      if (!(height > 0) || more[1] - more[0] <= 4 * height) ends = more;
    }
    return roomFor(ends);
  }

  texts(step) {
    const words = WORDS[this.unit], missing = this.isMissing.has(step);
    const told = { measure: missing ? 'missing' : words(this.measure[step]), ...this.still(),
      fleet: WORDS.kW(columnOf(this.season, 'fleet')[step]) };
    if (this.net) told.net = missing ? 'none' : WORDS.kW(this.net[step]);
    return told;
  }

  /* What the legend has where no step is pointed at. */
  still() {
    return { target: WORDS[this.unit](this.season.line) + ', band ' + WORDS[this.unit](this.season.band) };
  }

  marks(step) {
    const marks = [];
    if (this.isMissing.has(step)) marks.push('the reading is missing');
    if (this.isOutside.has(step)) marks.push(this.beyond + ' by the measure');
    if (this.isNetOutside.has(step)) marks.push(this.beyond + ' by the net measure');
    return marks;
  }

  under(context, area, graph, chart) {
    const { line, band } = this.season, scale = SCALE[this.unit];
    const top = graph.toDomYCoord((line + band / 2) / scale), low = graph.toDomYCoord((line - band / 2) / scale);
    context.fillStyle = faint('target', 0.2);
    context.fillRect(area.x, top, area.w, Math.max(1, low - top));
    across(context, area, graph, line / scale, 'target');
    context.fillStyle = faint('missing', 0.3);
    eachShown(this.missing, chart, (left, width) => context.fillRect(left, area.y, width, area.h));
  }

  /* A dot where a step is outside though the fleet is at work; by current, where it is by the measure. */
  dots(drawing) {
    const context = drawing.drawingContext, isOutside = this.net ? this.isNetOutside : this.isOutside;
    const size = Math.max(1.3, Math.min(2.6, 2 * drawing.plotArea.w / drawing.points.length));
    let last = [-9, -9];
    context.fillStyle = colour('outside');
    drawing.points.forEach((point, at) => {
      if (!isOutside.has(point.xval)) return;
      const next = drawing.points[at + 1], x = next ? (point.canvasx + next.canvasx) / 2 : point.canvasx;
      if (Math.abs(last[0] - x) < 1.5 && Math.abs(last[1] - point.canvasy) < 1.5) return;
      last = [x, point.canvasy];
      context.beginPath();
      context.arc(x, point.canvasy, size, 0, 2 * Math.PI);
      context.fill();
    });
  }

  after(graph, chart) {
    chart.lanes.draw(chart);
  }
}

/* The lanes beneath the meter: a mark for each step that is missing or outside. */
class Lanes {
  constructor(chart, meter) {
    const way = meter.season.charging ? '\u25bc ' : '\u25b2 ';
    this.lanes = [['missing', 'missing', meter.missing], [way + 'measure', 'measure', meter.outside]];
    if (meter.net) this.lanes.push([way + 'net', 'outside', meter.netOutside]);
    this.rows = this.lanes.map(([name]) => {
      const row = element('div', 'lane'), canvas = element('canvas');
      row.append(element('span', '', name), canvas);
      return [row, canvas];
    });
    const holder = element('div', 'lanes');
    holder.setAttribute('aria-hidden', 'true');
    holder.append(...this.rows.map(([row]) => row));
    chart.plot.append(holder);
  }

  draw(chart) {
    const area = chart.area(), ratio = chart.pixelRatio || window.devicePixelRatio || 1, height = 9;
    this.lanes.forEach(([, name, steps], at) => {
      const canvas = this.rows[at][1], context = canvas.getContext('2d');
      canvas.width = Math.round(area.w * ratio);
      canvas.height = height * ratio;
      Object.assign(canvas.style, { left: area.x + 'px', width: area.w + 'px', height: height + 'px' });
      context.scale(ratio, ratio);
      context.fillStyle = colour(name);
      eachShown(steps, chart, (left, width) => context.fillRect(left - area.x, 0, Math.max(1.5, width), height));
    });
  }
}
