/* The season at other targets: what import peak says of each. */

/* Under a chart over targets: the stick's own target, and the best that held. */
const TARGETS = [['own', 'measure'], ['held', 'target']];

const LIMIT = { key: 'limit', name: 'target and half the band', colour: 'target', look: 'dash',
  draw: { strokeWidth: 1.2 } };

class SweepGraph extends Graph {
  /* find gives the value of a target, in the unit of the series; limit, if there is one, what it may be. */
  constructor(id, season, words, { series, unit, find, limit }) {
    super(id, limit ? [series, LIMIT] : [series], words + ' Arrow keys go from target to target.');
    Object.assign(this, { season, unit, find, limit });
    this.figure.append(element('div', 'below', 'target, ' + measureUnit(season)));
    this.targets = season.sweep.targets;
    this.scale = SCALE[measureUnit(season)];
    this.at = null;
    this.surface.addEventListener('mousemove', event => this.follow(event));
    this.surface.addEventListener('mouseleave', () => this.choose(null));
    this.plot.addEventListener('blur', () => this.choose(null));
    this.plot.addEventListener('keydown', event => this.press(event));
  }

  load() {
    const rows = this.targets.map(one => [one.target / this.scale, this.find(one) / SCALE[this.unit],
      ...this.limit ? [this.limit(one.target) / SCALE[this.unit]] : []]);
    const room = roomFor(rows.map(row => row[1]).concat(this.unit === 'kW' ? [] : [0]));
    this.ends = roomFor(rows.map(row => row[0]));
    this.draw({ file: rows, valueRange: room, dateWindow: this.ends, drawPoints: true, pointSize: 2.5, rightGap: 24,
      xAxisHeight: 22 });
  }

  xTicks(from, to, width) {
    return roundTicks(from, to, width / 48);
  }

  xWidth() {
    return 48;
  }

  xOf(target) {
    return this.graph.toDomXCoord(target / this.scale);
  }

  under(context, area, graph) {
    for (const [name, hue] of TARGETS) {
      const target = this.season.sweep[name];
      if (target === null) continue;
      const x = graph.toDomXCoord(target / this.scale);
      context.strokeStyle = colour(hue);
      context.fillStyle = colour(hue);
      context.lineWidth = name === 'held' ? 2 : 1;
      context.beginPath();
      context.moveTo(x, area.y);
      context.lineTo(x, area.y + area.h);
      context.stroke();
    }
  }

  choose(at) {
    this.at = at === null ? null : Math.max(0, Math.min(this.targets.length - 1, at));
    this.line.hidden = this.at === null;
    if (this.at === null) {
      this.hideTip();
      return;
    }
    const one = this.targets[this.at], area = this.graph.getArea(), x = this.xOf(one.target);
    place(this.line, x, 1, area);
    this.showTip(x, sweepLines(this.season, one));
  }

  follow(event) {
    const x = event.clientX - this.surface.getBoundingClientRect().left;
    const distances = this.targets.map(one => Math.abs(this.xOf(one.target) - x));
    this.choose(distances.indexOf(Math.min(...distances)));
  }

  press(event) {
    const by = { ArrowLeft: -1, ArrowRight: 1 }[event.key];
    if (by === undefined || event.ctrlKey || event.metaKey || event.altKey) return;
    this.choose(this.at === null ? 0 : this.at + by);
    const lines = sweepLines(this.season, this.targets[this.at]);
    document.getElementById('said').textContent = lines.map(([text]) => text).join('; ');
    event.preventDefault();
  }
}

function sweepLines(season, one) {
  const unit = measureUnit(season), beyond = beyondWord(season), side = season.charging ? 'smallest' : 'largest';
  const lines = [['target ' + WORDS[unit](one.target), 'step']];
  if (one.net !== null) lines.push([side + ' net measure ' + WORDS.kW(one.net)]);
  if (one.outside !== null) lines.push([WORDS.steps(one.outside) + ' ' + beyond + ' by the net measure']);
  lines.push([WORDS.steps(one.seen) + ' ' + beyond + ' by the measure']);
  if (one.store !== null) lines.push(['lowest store ' + WORDS.kWh(one.store)]);
  if (one.held !== null) lines.push([one.held ? 'held' : 'did not hold', one.held ? 'good' : 'mark']);
  return lines;
}

function dotted(key, name, hue) {
  return { key, name, colour: hue, look: 'dots', draw: {} };
}

/* The end of the net measures that counts, and what it may be at each target. */
function netGraph(season) {
  const side = season.charging ? 'Smallest' : 'Largest', half = (season.charging ? -1 : 1) * season.band / 2;
  document.getElementById('nets-title').textContent = side + ' net measure';
  return new SweepGraph('nets', season, side + ' net measure over the target.', { unit: 'kW', find: one => one.net,
    limit: target => (season.mode === 2 ? -target : target) + half, series: dotted('net', 'net measure', 'net') });
}

function countGraph(season, hasNet) {
  const title = 'Steps ' + beyondWord(season) + ' the target';
  document.getElementById('counts-title').textContent = title;
  return new SweepGraph('counts', season, title + '.', { unit: 'steps', find: one => (hasNet ? one.outside : one.seen),
    series: dotted('count', hasNet ? 'by the net measure' : 'by the measure', 'outside') });
}

function storeGraph(season) {
  return new SweepGraph('stores', season, 'Lowest store of the fleet over the target.', { unit: 'kWh',
    find: one => one.store, series: dotted('low', 'lowest store', 'net') });
}

/* What the two lines in the charts are. */
function sweepNote(season) {
  const words = WORDS[measureUnit(season)], { own, held } = season.sweep;
  const side = season.charging || season.mode === 2 ? 'highest' : 'lowest';
  const said = season.current ? 'By current nobody can say which of them held.' :
    held === null ? 'None of the targets that were tried held.' : 'The thick line is the ' + side +
      ' target that held, ' + words(held) + ': no step is ' + beyondWord(season) + ' it by more than half the band.';
  return 'The season at other targets, each of them run anew. ' + said +
    ' The thin line is the stick\u2019s own target, ' + words(own) + '.';
}

/* The charts of the sweep that there is something for. Without a sweep there are none. */
function sweepGraphs(season) {
  const section = document.getElementById('sweep');
  if (season.sweep === null) {
    section.remove();
    return [];
  }
  const hasNet = season.sweep.targets.some(one => one.net !== null);
  section.hidden = false;
  document.getElementById('sweep-note').textContent = sweepNote(season);
  if (!hasNet) document.getElementById('nets').remove();
  return [...hasNet ? [netGraph(season)] : [], countGraph(season, hasNet), storeGraph(season)];
}
