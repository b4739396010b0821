/* A chart over the steps of a season. What a step has, lasts from its place to the next; what is stored after it,
** stands at its end.
*/

/* Distances of ticks in seconds, where they are whole numbers of steps. */
const ROUND_TIMES = [1, 5, 10, 30, 60, 300, 600, 900, 1800, 3600, 7200, 10800, 21600, 43200, 86400, 172800, 259200,
  604800, 1209600, 2419200, 4838400, 7257600, 14515200, 29030400];

function stepDistance(seconds, least) {
  const time = ROUND_TIMES.find(round => round % seconds === 0 && round / seconds >= least);
  if (time !== undefined) return time / seconds;
  const ten = Math.pow(10, Math.floor(Math.log10(Math.max(1, least))));
  return [1, 2, 5, 10].map(times => times * ten).find(size => size >= least);
}

class TimeGraph extends Graph {
  /* source has rows(), a row for each place; texts(step), the values of a step in words; and room(), the range of
  ** values. marks(step), under(..) and after(..) may be there too.
  */
  constructor(id, series, words, season, view, source) {
    super(id, series, words);
    this.season = season;
    this.view = view;
    this.source = source;
    this.isSeen = true;
    this.isLate = false;
    this.plot.setAttribute('aria-describedby', 'keys');
    this.plot.addEventListener('keydown', event => {
      if (pressed(view, event)) event.preventDefault();
      this.say();
    });
    this.surface.addEventListener('mousemove', event => this.follow(event));
    this.surface.addEventListener('mouseleave', () => view.point(null));
    this.drag = new Drag(this, view);
    view.add(this);
  }

  /* All of it anew: other rows, other colours or another size. */
  load() {
    const room = this.source.room();
    this.draw({ file: this.source.rows(), valueRange: room, dateWindow: [this.view.from, this.view.to] });
    this.isLate = false;
    this.point(this.view.step);
  }

  /* A chart that nobody sees is drawn when it is seen. */
  range(from, to) {
    this.isLate = !this.isSeen;
    if (this.isSeen && this.graph !== null) this.graph.updateOptions({ dateWindow: [from, to] });
  }

  seen(isSeen) {
    this.isSeen = isSeen;
    if (isSeen && this.isLate) this.range(this.view.from, this.view.to);
    if (isSeen) this.point(this.view.step);
  }

  xTicks(from, to, width) {
    const distance = stepDistance(this.season.seconds, (to - from) / Math.max(1, Math.floor(width / 84))), ticks = [];
    for (let at = Math.ceil(from / distance); at * distance <= to; at++) {
      const place = at * distance, row = '<span class="row">step ' + grouped(place) + '</span>';
      ticks.push({ v: place, label: lasting(place * this.season.seconds) + '<br>' + row });
    }
    return ticks;
  }

  area() {
    return this.graph.getArea();
  }

  xOf(place) {
    const area = this.area();
    return area.x + (place - this.view.from) / (this.view.to - this.view.from) * area.w;
  }

  placeOf(event) {
    const area = this.area(), x = event.clientX - this.surface.getBoundingClientRect().left;
    const part = Math.max(0, Math.min(1, (x - area.x) / area.w));
    return this.view.from + part * (this.view.to - this.view.from);
  }

  under(context, area, graph) {
    if (this.source.under) this.source.under(context, area, graph, this);
  }

  after(graph) {
    if (this.source.after) this.source.after(graph, this);
  }

  follow(event) {
    this.view.point(Math.floor(this.placeOf(event)), this);
  }

  lines(step) {
    const texts = this.source.texts(step), marks = this.source.marks ? this.source.marks(step) : [];
    const after = 'from ' + lasting(step * this.season.seconds) + ' to ' + lasting((step + 1) * this.season.seconds);
    const values = this.series.filter(one => texts[one.key] !== undefined && !one.isStill)
      .map(one => (one.short || one.name) + ' ' + texts[one.key]);
    return [[stepWords(step), 'step'], [after], ...values.map(text => [text]), ...marks.map(text => [text, 'mark'])];
  }

  /* Show what a step has: in the legend of every chart, and in a box in the one that is pointed at. */
  point(step) {
    this.tell(step === null ? this.source.still && this.source.still() : this.source.texts(step));
    if (this.graph === null || !this.isSeen) return;
    this.line.hidden = step === null || step < this.view.from - 1 || step > this.view.to;
    const isMine = this.view.pointed === null ? document.activeElement === this.plot : this.view.pointed === this;
    if (this.line.hidden || !isMine) this.hideTip();
    if (this.line.hidden) return;
    const area = this.area(), left = Math.max(area.x, this.xOf(step));
    const right = Math.min(area.x + area.w, this.xOf(step + 1));
    place(this.line, left, Math.max(1, right - left), area);
    if (isMine) this.showTip((left + right) / 2, this.lines(step));
  }

  /* The step for those who hear the page. */
  say() {
    if (this.view.step === null) return;
    document.getElementById('said').textContent = this.lines(this.view.step).map(([text]) => text).join('; ');
  }
}
