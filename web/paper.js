// Two sheets of paper: the picture and the texts, and the trace and the state.

/** How many lines of each a sheet has; what is left out is said. */
const LINES_ON_PAPER = { texts: 44, trace: 88, state: 80 };

/** Lines as a part of a sheet. */
function listing(title, lines, most) {
  const part = made('section'), left = lines.length - most, seen = left > 0 ? [...lines.slice(0, most), `.. and ${counted(left, 'line')} more`] : lines;
  part.append(made('h2', title), made('pre', seen.join('\n')));
  return part;
}

/** A copy of a picture, with names of its own for what its parts refer to: what is not printed cannot be referred to. */
function copyOf(picture) {
  const copy = picture.cloneNode(true);
  copy.innerHTML = copy.innerHTML.replace(/ id="|url\(#/g, '$&paper-');
  return copy;
}

/** Makes the sheets. */
function fillPaper({ title, texts, view, status }) {
  const [first, second] = [made('div', '', 'sheet'), made('div', '', 'sheet')], pairs = made('div', '', 'pair'), more = made('div', '', 'pair');
  const picture = $('picture').firstElementChild, [machine, events] = texts.map(it => decoded(it).trimEnd().split('\n'));
  const most = LINES_ON_PAPER;
  first.append(made('h1', title), made('p', status), ...(picture ? [copyOf(picture)] : []), pairs);
  pairs.append(listing('Machine file', machine.map((line, i) => `${String(i + 1).padStart(3)}  ${line}`), most.texts), listing('Events', events, most.texts));
  const rows = view.trace.rows.map(row => `${String(row.step).padStart(5)}  ${textOf(row)}`);
  second.append(made('h1', `${title}: trace, and state after step ${shown(view.step)}`), more);
  more.append(listing('Trace', rows, most.trace), listing(`State after step ${shown(view.step)}`, [...$('state').children].flatMap(part => ['', ...[...part.children].map(line => line.matches('.head') ? [...line.childNodes].map(it => it.textContent.trim()).join(', ') : line.textContent)]).slice(1), most.state));
  $('paper').replaceChildren(first, second);
}
