/* The page: its charts, its lists and its buttons. */

const season = JSON.parse(document.getElementById('season').textContent);
const view = new View(season.steps);
const byId = id => document.getElementById(id);

function addCharts() {
  const meter = new Meter(season), first = season.batteries[0], charts = {};
  const add = (id, series, words, source) => {
    charts[id] = new TimeGraph(id, series, words, season, view, source);
  };
  add('meter', meter.series(), 'The meter and its target over time.', meter);
  charts.meter.lanes = new Lanes(charts.meter, meter);
  add('store', Store.series('all batteries'), 'The store of the fleet over time.', new Store(season));
  add('unit', REQUESTS, 'Request and power of the chosen battery over time.', batteryColumns(season, first));
  add('held', Store.series('the chosen battery'), 'The store of the chosen battery over time.', new Store(first));
  add('losses', LOSSES, 'Losses in each step.', lossColumns(season, first));
  if (season.inverters.length === 0) byId('roof').remove();
  else add('roof', ROOF, 'Power of the inverters over time.', roofColumns(season, season.roof));
  return charts;
}

function chooseBattery(charts, number) {
  const battery = season.batteries[number];
  charts.unit.source = batteryColumns(season, battery);
  charts.held.source = new Store(battery);
  charts.losses.source = lossColumns(season, battery);
  for (const chart of [charts.unit, charts.held, charts.losses]) chart.load();
}

function chooseInverter(charts, number) {
  charts.roof.source = roofColumns(season, number < 0 ? season.roof : season.inverters[number]);
  charts.roof.load();
}

/* Buttons for spans that are shorter than the season. */
function addSpans() {
  const spans = [['28 days', 2419200], ['7 days', 604800], ['1 day', 86400]];
  const button = (text, deed) => {
    const made = element('button', '', text);
    made.type = 'button';
    made.addEventListener('click', deed);
    byId('spans').append(made);
  };
  button('Whole season', () => view.all());
  for (const [text, seconds] of spans) {
    const size = seconds / season.seconds;
    if (size < season.steps && size >= CLOSEST) button(text, () => {
      const at = view.step === null ? (view.from + view.to) / 2 : view.step + 0.5;
      view.show(at - size / 2, at + size / 2);
    });
  }
}

function showStep(step) {
  if (view.to - view.from > 240) view.show(step - 60, step + 61);
  view.point(step);
  byId('step').value = step;
}

function addButtons(charts) {
  byId('earlier').addEventListener('click', () => view.move(-PART * 2));
  byId('later').addEventListener('click', () => view.move(PART * 2));
  byId('closer').addEventListener('click', () => view.zoom(0.5));
  byId('wider').addEventListener('click', () => view.zoom(2));
  byId('step').max = season.steps - 1;
  byId('go').addEventListener('submit', event => {
    event.preventDefault();
    if (byId('step').value !== '') showStep(Number(byId('step').value));
  });
  for (const button of document.querySelectorAll('button[data-step]'))
    button.addEventListener('click', () => {
      showStep(Number(button.dataset.step));
      byId('time').scrollIntoView();
      charts.meter.plot.focus({ preventScroll: true });
    });
}

function addLists(charts) {
  byId('battery').addEventListener('change', event => chooseBattery(charts, Number(event.target.value)));
  if (!charts.roof) return;
  byId('inverter').addEventListener('change', event => chooseInverter(charts, Number(event.target.value)));
}

function tellRange() {
  const first = Math.floor(view.from), last = Math.min(season.steps, Math.ceil(view.to)) - 1;
  const steps = 'steps ' + grouped(first) + ' to ' + grouped(last) + ' of ' + grouped(season.steps);
  byId('shown').textContent = steps + ', ' + lasting((last - first + 1) * season.seconds);
}

/* Colours follow the style; on paper it is the light one, and charts are as wide as the paper and finely drawn. */
function addLooks(graphs) {
  const again = () => graphs.forEach(graph => graph.load());
  matchMedia('(prefers-color-scheme: dark)').addEventListener('change', again);
  let open = [];
  const printing = isPrinting => {
    const classes = document.documentElement.classList;
    if (classes.contains('printing') === isPrinting) return;
    classes.toggle('printing', isPrinting);
    open = isPrinting ? [...document.querySelectorAll('main details:not([open])')] : open;
    open.forEach(details => { details.open = isPrinting; });
    for (const graph of graphs) graph.renew(isPrinting ? 3 : undefined);
  };
  addEventListener('beforeprint', () => printing(true));
  addEventListener('afterprint', () => printing(false));
}

/* A chart out of sight is drawn when it comes near. */
function watch(charts) {
  const of = new Map(charts.map(chart => [chart.plot, chart]));
  const watcher = new IntersectionObserver(entries => {
    for (const entry of entries) of.get(entry.target).seen(entry.isIntersecting);
  }, { rootMargin: '200px' });
  for (const chart of charts) watcher.observe(chart.plot);
}

function begin() {
  if (season.steps === 0) {
    byId('trouble').textContent = 'The stick has no step: there is nothing to draw.';
    byId('trouble').hidden = false;
    return;
  }
  byId('time').hidden = false;
  byId('meter-unit').textContent = measureUnit(season);
  const charts = addCharts(), all = [...view.charts, ...sweepGraphs(season)];
  addSpans();
  addButtons(charts);
  addLists(charts);
  view.changed = tellRange;
  tellRange();
  for (const graph of all) graph.load();
  watch(view.charts);
  addLooks(all);
  document.documentElement.dataset.drawn = 'yes';
}

try {
  begin();
} catch (fault) {
  byId('trouble').textContent = 'The charts cannot be drawn in this browser: ' + fault.message;
  byId('trouble').hidden = false;
  throw fault;
}
