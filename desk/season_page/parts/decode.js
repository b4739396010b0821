/* The columns of the season, as desk/season_page/packed.py codes them. */

function unpack(text) {
  const bytes = atob(text), column = [];
  let at = 0, last = 0;
  /* Numbers may have more bits than a shift goes over. */
  function next() {
    let number = 0, scale = 1, byte;
    do {
      byte = bytes.charCodeAt(at++);
      number += (byte & 127) * scale;
      scale *= 128;
    } while (byte > 127);
    return number;
  }
  while (at < bytes.length) {
    const code = next();
    if (code === 0) {
      for (let more = next(); more >= 0; more--) column.push(last);
    } else {
      last += code % 2 === 0 ? code / 2 : -(code + 1) / 2;
      column.push(last);
    }
  }
  return Float64Array.from(column);
}

/* A column is unpacked when it is asked for, and once. */
function columnOf(holder, name) {
  if (typeof holder[name] === 'string') holder[name] = unpack(holder[name]);
  return holder[name];
}
