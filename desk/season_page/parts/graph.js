/* A chart in its figure: a legend, which also shows the values, what the library draws, and a box by the pointer.
**
** A series is {key, name, short, colour, look, draw, isStill}: its name, and the one in the box if this is another; a
** colour of the style; how its line looks, for which the style has a class; what the library is to know of it, or
** nothing where the chart itself draws it; and whether its value is the same for all steps.
*/

/* Of the library's parts those that draw axes and the grid. The others would put styles into the page. */
Dygraph.PLUGINS = [Dygraph.Plugins.Axes, Dygraph.Plugins.Grid];

const AXIS = { width: 62, height: 36, right: 14, font: 12, small: 10 };

function element(name, className, text) {
  const made = document.createElement(name);
  if (className) made.className = className;
  if (text !== undefined) made.textContent = text;
  return made;
}

/* Put an element over a chart, as high as its area. */
function place(one, left, width, area) {
  Object.assign(one.style, { left: left + 'px', width: width + 'px', top: area.y + 'px', height: area.h + 'px' });
}

/* Round numbers between two, some of them: 1, 2 or 5 times a power of ten apart. */
function roundTicks(from, to, most) {
  const least = (to - from) / Math.max(1, most), ten = Math.pow(10, Math.floor(Math.log10(least)));
  const distance = [1, 2, 5, 10].map(times => times * ten).find(size => size >= least * (1 - 1e-9));
  const ticks = [];
  for (let at = Math.ceil(from / distance - 1e-9); at * distance <= to + distance * 1e-9; at++)
    ticks.push({ v: at * distance, label: tickWords(at * distance, distance) });
  return ticks;
}

/* The smallest and the largest of some values; where there are none, the one is above the other. */
function endsOf(values) {
  let least = Infinity, most = -Infinity;
  for (const value of values) {
    if (value < least) least = value;
    if (value > most) most = value;
  }
  return [least, most];
}

/* A range that has all of some values within it, and a little room, but none below 0 where nothing is. */
function roomFor(values) {
  const [least, most] = endsOf(values);
  if (least > most) return [0, 1];
  const room = most > least ? (most - least) * 0.06 : Math.max(Math.abs(most) * 0.1, 1);
  return [least === 0 ? 0 : least - room, most + room];
}

/* A line across a chart, at a height, in a colour of the style. */
function across(context, area, graph, value, name) {
  const y = graph.toDomYCoord(value);
  context.save();
  context.strokeStyle = colour(name);
  context.lineWidth = 1.5;
  context.setLineDash([7, 4]);
  context.beginPath();
  context.moveTo(area.x, y);
  context.lineTo(area.x + area.w, y);
  context.stroke();
  context.restore();
}

/* A line as the library draws it, unless there are more points than pixels: then it is a bar in each column of pixels
** from the smallest to the largest, which looks the same and is drawn many times as quickly.
*/
function plotLine(drawing) {
  const { points, plotArea, drawingContext: context, strokeWidth, color } = drawing;
  if (points.length <= plotArea.w) {
    Dygraph.Plotters.linePlotter(drawing);
    return;
  }
  let column = null, top = 0, low = 0, last = NaN;
  const end = () => {
    if (column !== null) context.fillRect(column, top - strokeWidth / 2, 1, low - top + strokeWidth);
  };
  context.fillStyle = color;
  for (const { canvasx, canvasy } of points) {
    const at = Number.isNaN(canvasy) ? null : Math.floor(canvasx);
    if (at !== column) {
      end();
      column = at;
      top = low = Number.isNaN(last) ? canvasy : last;
    }
    top = Math.min(top, canvasy);
    low = Math.max(low, canvasy);
    last = canvasy;
  }
  end();
}

/* The same of what is filled below a line. */
function plotArea(drawing) {
  const { points, plotArea: area, drawingContext: context, color, dygraph, setName } = drawing;
  if (!dygraph.getBooleanOption('fillGraph', setName)) return;
  if (points.length <= area.w) {
    Dygraph.Plotters.fillPlotter(drawing);
    return;
  }
  const tops = new Map(), base = Math.min(area.y + area.h, dygraph.toDomYCoord(0));
  for (const { canvasx, canvasy } of points) {
    const at = Math.floor(canvasx);
    tops.set(at, Math.min(canvasy, tops.has(at) ? tops.get(at) : base));
  }
  context.fillStyle = color;
  context.globalAlpha = dygraph.getNumericOption('fillAlpha', setName);
  for (const [at, top] of tops) context.fillRect(at, top, 1, base - top);
}

class Graph {
  constructor(id, series, words) {
    this.figure = document.getElementById(id);
    this.series = series;
    this.values = new Map();
    this.graph = null;
    this.addLegend();
    this.plot = element('div', 'plot');
    this.plot.tabIndex = 0;
    this.plot.setAttribute('role', 'group');
    this.plot.setAttribute('aria-label', words);
    this.surface = element('div', 'surface');
    this.line = element('div', 'cursor');
    this.tip = element('div', 'tip');
    this.line.hidden = this.tip.hidden = true;
    this.plot.append(this.surface, this.line, this.tip);
    this.figure.append(this.plot);
  }

  addLegend() {
    const legend = element('ul', 'legend');
    for (const { key, name, colour: hue, look, isStill } of this.series) {
      const item = element('li', look), swatch = element('span', 'swatch ' + look);
      const value = element('span', isStill ? 'value' : 'value moving');
      item.dataset.series = key;
      swatch.style.setProperty('--hue', 'var(--' + hue + ')');
      item.append(swatch, element('span', 'what', name), value);
      legend.append(item);
      this.values.set(key, value);
    }
    this.figure.querySelector('figcaption').append(legend);
  }

  /* The series that the library draws. */
  drawn() {
    return this.series.filter(one => one.draw);
  }

  seriesOptions() {
    const options = {};
    for (const { key, colour: hue, look, draw } of this.drawn())
      options[key] = { color: colour(hue), strokePattern: look === 'dash' ? [6, 3] : null, strokeWidth: 1.6,
        fillGraph: look === 'area', fillAlpha: 0.16, ...draw };
    return options;
  }

  options() {
    return {
      labels: ['x', ...this.drawn().map(one => one.key)], series: this.seriesOptions(),
      highlightCircleSize: 0, interactionModel: {},
      axisLabelFontSize: this.pixelRatio ? AXIS.small : AXIS.font, xAxisHeight: AXIS.height, rightGap: AXIS.right,
      gridLineColor: colour('grid'), gridLineWidth: 1, axisLineColor: colour('axis'), axisLineWidth: 1,
      axes: {
        x: { axisLabelWidth: this.xWidth(), ticker: (from, to, width) => this.xTicks(from, to, width) },
        y: { axisLabelWidth: AXIS.width, ticker: (from, to, height) => roundTicks(from, to, height / 34) },
      },
      plotter: [plotArea, plotLine],
      pixelRatio: this.pixelRatio || window.devicePixelRatio || 1,
      underlayCallback: (context, area, graph) => {
        this.graph = graph; /* The first drawing comes before the library has given it. */
        this.under(context, area, graph);
      },
      drawCallback: graph => this.after(graph),
    };
  }

  /* Draw rows, or draw what is there once more in other colours or in another size. */
  draw(options) {
    const all = { ...this.options(), ...options };
    if (this.graph === null) {
      this.graph = new Dygraph(this.surface, all.file, all);
    } else {
      this.graph.updateOptions(all);
    }
  }

  /* Drawn from nothing, in the size that there is now, with so many dots of a picture for each of the page. */
  renew(pixelRatio) {
    this.pixelRatio = pixelRatio;
    if (this.graph !== null) this.graph.destroy();
    this.graph = null;
    this.load();
  }

  under() {}

  after() {}

  xWidth() {
    return 104;
  }

  /* The values of a place of the chart in the legend, or none. */
  tell(texts) {
    for (const [key, value] of this.values) value.textContent = texts && texts[key] !== undefined ? texts[key] : '';
  }

  /* The box beside a place of the chart, in pixels from the left. */
  showTip(x, lines) {
    this.tip.replaceChildren(...lines.map(([text, className]) => element('div', className, text)));
    this.tip.hidden = false;
    const room = this.plot.clientWidth, width = this.tip.offsetWidth;
    this.tip.style.left = (x + 14 + width > room ? Math.max(0, x - 14 - width) : x + 14) + 'px';
  }

  hideTip() {
    this.tip.hidden = true;
  }
}
