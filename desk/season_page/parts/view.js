/* What part of the season is shown, and which step is pointed at: the same in all charts over time. */

/* No closer than so many steps, and a key moves by such a part of what is shown. */
const CLOSEST = 4, PART = 0.2;

class View {
  constructor(steps) {
    this.steps = steps;
    this.from = 0;
    this.to = steps;
    this.step = null;
    this.pointed = null;
    this.charts = [];
    this.waiting = false;
  }

  add(chart) {
    this.charts.push(chart);
  }

  /* Show the steps from one place up to another, or as near to it as there are steps. */
  show(from, to) {
    const size = Math.min(this.steps, Math.max(CLOSEST, to - from)), middle = (from + to) / 2;
    this.from = Math.max(0, Math.min(this.steps - size, middle - size / 2));
    this.to = this.from + size;
    this.soon();
  }

  all() {
    this.show(0, this.steps);
  }

  /* A size below 1 comes closer; what is at the place stays where it is. */
  zoom(size, place) {
    const at = place === undefined ? (this.from + this.to) / 2 : place;
    this.show(at - (at - this.from) * size, at + (this.to - at) * size);
  }

  move(part) {
    const by = (this.to - this.from) * part;
    this.moveTo(this.from + by);
  }

  moveTo(from) {
    const size = this.to - this.from;
    const at = Math.max(0, Math.min(this.steps - size, from));
    this.show(at, at + size);
  }

  /* Point at a step, and come to it if it is not shown; with the pointer, in a chart. Without a step nothing is pointed
  ** at.
  */
  point(step, chart) {
    this.pointed = chart || null;
    this.step = step === null ? null : Math.max(0, Math.min(this.steps - 1, step));
    if (this.step !== null && (this.step < this.from || this.step >= this.to))
      this.moveTo(this.step + 0.5 - (this.to - this.from) / 2);
    for (const chart of this.charts) chart.point(this.step);
  }

  /* However many changes come, the charts are drawn once, before the browser shows the next picture. */
  soon() {
    if (this.waiting) return;
    this.waiting = true;
    requestAnimationFrame(() => this.now());
  }

  now() {
    this.waiting = false;
    for (const chart of this.charts) chart.range(this.from, this.to);
    for (const chart of this.charts) chart.point(this.step);
    if (this.changed) this.changed();
  }
}

/* The keys of a chart that has the focus. Gives whether the key is one of them. */
function pressed(view, event) {
  const step = view.step === null ? Math.floor((view.from + view.to) / 2) : view.step;
  const deeds = {
    ArrowLeft: () => (event.shiftKey ? view.point(step - 1) : view.move(-PART)),
    ArrowRight: () => (event.shiftKey ? view.point(step + 1) : view.move(PART)),
    '+': () => view.zoom(0.5, view.step === null ? undefined : view.step + 0.5),
    '=': () => view.zoom(0.5, view.step === null ? undefined : view.step + 0.5),
    '-': () => view.zoom(2, view.step === null ? undefined : view.step + 0.5),
    Home: () => view.moveTo(0),
    End: () => view.moveTo(view.steps),
    0: () => view.all(),
    Escape: () => view.point(null),
  };
  if (event.ctrlKey || event.metaKey || event.altKey || !(event.key in deeds)) return false;
  deeds[event.key]();
  return true;
}

/* Dragging: over the chart comes closer, with Shift or a finger it moves. */
class Drag {
  constructor(chart, view) {
    this.chart = chart;
    this.view = view;
    this.rect = element('div', 'chosen');
    this.rect.hidden = true;
    chart.plot.append(this.rect);
    const surface = chart.surface;
    surface.addEventListener('pointerdown', event => this.begin(event));
    surface.addEventListener('pointermove', event => this.go(event));
    surface.addEventListener('pointerup', event => this.end(event));
    surface.addEventListener('pointercancel', () => this.leave());
    surface.addEventListener('dblclick', () => view.all());
    surface.addEventListener('wheel', event => this.wheel(event), { passive: false });
  }

  begin(event) {
    if (event.button !== 0) return;
    this.start = { x: event.clientX, place: this.chart.placeOf(event), from: this.view.from, moves: event.shiftKey ||
      event.pointerType === 'touch' };
    this.chart.surface.setPointerCapture(event.pointerId);
    this.chart.plot.focus({ preventScroll: true });
  }

  go(event) {
    if (!this.start) return;
    if (this.start.moves) {
      const area = this.chart.area();
      this.view.moveTo(this.start.from - (event.clientX - this.start.x) * (this.view.to - this.view.from) / area.w);
    } else {
      this.showRect(this.start.place, this.chart.placeOf(event));
    }
  }

  showRect(one, other) {
    const area = this.chart.area(), left = this.chart.xOf(Math.min(one, other));
    const width = this.chart.xOf(Math.max(one, other)) - left;
    place(this.rect, left, width, area);
    this.rect.hidden = false;
  }

  end(event) {
    const start = this.start, place = this.chart.placeOf(event);
    this.leave();
    if (start && !start.moves && Math.abs(event.clientX - start.x) > 5)
      this.view.show(Math.floor(Math.min(start.place, place)), Math.ceil(Math.max(start.place, place)));
  }

  leave() {
    this.start = undefined;
    this.rect.hidden = true;
  }

  /* A wheel alone scrolls the page. */
  wheel(event) {
    const sideways = event.shiftKey ? event.deltaY || event.deltaX : event.deltaX;
    if (event.ctrlKey) {
      this.view.zoom(event.deltaY > 0 ? 1.25 : 0.8, this.chart.placeOf(event));
    } else if (Math.abs(sideways) > 0) {
      this.view.move(Math.sign(sideways) * PART / 2);
    } else {
      return;
    }
    event.preventDefault();
  }
}
