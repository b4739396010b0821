/* The colours of the style, for what is drawn: each by the name of its variable there. */

function colour(name) {
  return getComputedStyle(document.documentElement).getPropertyValue('--' + name).trim();
}

/* A colour with so much of it that what is behind it shows. */
function faint(name, alpha) {
  const text = colour(name).slice(1);
  const [red, green, blue] = [0, 2, 4].map(at => parseInt(text.slice(at, at + 2), 16));
  return 'rgba(' + red + ',' + green + ',' + blue + ',' + alpha + ')';
}
