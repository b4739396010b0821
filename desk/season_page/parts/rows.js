/* What the library is given: rows of values over places of the x axis. */

/* Rows of what lasts for a step: one for each step, and one behind them that ends the last. */
function lastingRows(steps, columns) {
  const rows = [];
  for (let step = 0; step < steps; step++) rows.push([step, ...columns.map(column => column(step))]);
  rows.push([steps, ...columns.map(() => null)]);
  return rows;
}

/* Rows of what is stored: before the first step, and after each. */
function storedRows(start, column) {
  const rows = [[0, start / SCALE.kWh]];
  for (let step = 0; step < column.length; step++) rows.push([step + 1, column[step] / SCALE.kWh]);
  return rows;
}

function values(columns, scale) {
  const all = [];
  for (const column of columns) for (const value of column) all.push(value / scale);
  return all;
}

/* For the library, of what lasts for a step. */
const LASTING = { stepPlot: true };
