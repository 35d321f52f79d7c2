/** The part of the page of that name. */
const $ = id => document.getElementById(id);

/** A new part of the page, with a text and a class. */
function made(tag, text = '', name = '') {
  const it = document.createElement(tag);
  it.textContent = text;
  if (name) it.className = name;
  return it;
}

/** A new button that does something, of a kind that sends no form. */
function button(text, act, name = '') {
  const it = made('button', text, name);
  it.type = 'button';
  it.addEventListener('click', act);
  return it;
}

/** A number as it is read: 1,000. */
const shown = number => number.toLocaleString('en');

/** A number with what it counts: 1 line, 2 lines. */
const counted = (number, what) => `${shown(number)} ${what}${number === 1 ? '' : 's'}`;

const encoded = text => new TextEncoder().encode(text), decoded = bytes => new TextDecoder().decode(bytes);

/** Whether two texts are the same bytes; and two lists of texts. */
const isSame = (a, b) => a.length === b.length && a.every((byte, i) => byte === b[i]), areSame = (a, b) => a.every((text, i) => isSame(text, b[i]));

/** A text with what is between backquotes as code. */
const withCode = text => text.split('`').map((part, i) => i % 2 ? made('code', part) : part);
