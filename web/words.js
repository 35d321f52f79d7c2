// The words of machine files: colours, completion, help, and what the sentences need. All of it is of the list of words that the page carries.

/** The words by name, the keys of the tables of a machine file by table, and the codes of alerts. */
let WORDS = {}, KEYS = {}, ALERT_CODES = new Set();

function takeWords({ words, keys }) {
  WORDS = Object.fromEntries(words.map(it => [it.name, it]));
  KEYS = keys;
  ALERT_CODES = new Set(words.flatMap(it => it.alerts.map(one => one.code)));
}

/** Whether a text is a word; not what every object has. */
const isWord = text => Object.hasOwn(WORDS, text);

/** The line of a trace that an alert has printed; no task can print it, since no word is named as a code. */
const isAlertLine = line => { const [first, code] = line.split(' '); return first === 'alert' && ALERT_CODES.has(code); };

/** How a word is written, with what it answers. */
function usageOf(word) {
  const given = word.arguments.map(it => it.text).join(', ');
  return `${word.name}${given ? ` ${given}` : ''}${word.answer ? `, which answers ${word.answer.text}` : ''}`;
}

/** Help on a word. */
function helpOf(word) {
  const use = made('p'), c = made('p'), alerts = word.alerts.map(it => `alert ${it.code}${it.when ? ` if ${it.when}` : ''}`);
  use.append(made('b', usageOf(word)), word.in_interrupts ? '' : ' (in tasks alone)');
  c.append('In C: ', made('code', word.c));
  const effect = made('p');
  effect.append(...withCode(word.effect));
  return [use, ...(word.effect ? [effect] : []), c, ...(alerts.length ? [made('p', alerts.join('; '))] : []), ...(word.sources.length ? [made('p', word.sources.join('; '), 'source')] : [])];
}

/** The names of colours. */
const HEADER = 'header', KEY = 'property', STRING = 'string', QUOTE = 'quote', NUMBER = 'number', WORD = 'keyword', LABEL = 'def', SHARED = 'variable-2', COMMENT = 'comment';

/** A token of a line of code, within its string. */
function tokenOfCode(stream, state) {
  if (stream.eatSpace()) return null;
  if (stream.match(/^[A-Za-z_]\w*:/)) return LABEL;
  if (stream.match(state.quote === "'" ? /^"[^"']*"/ : /^\\"[^"\\]*\\"/)) return STRING;
  if (stream.match(/^-?(?:\$[0-9A-Fa-f]+|\d+)/)) return NUMBER;
  if (stream.match(/^@\w+/)) return SHARED;
  const word = stream.match(/^[A-Za-z_]\w*/);
  if (word) return isWord(word[0]) ? WORD : 'variable';
  stream.next();
  return null;
}

/** A token within a string: of a line of code, or of any other text. */
function tokenOfText(stream, state) {
  if (stream.match(state.quote)) {
    state.quote = '';
    return QUOTE;
  }
  if (state.key === 'code') return tokenOfCode(stream, state);
  while (!stream.eol() && !stream.match(state.quote, false)) stream.next();
  return STRING;
}

/** Machine files: TOML, and in the strings of `code` their words. */
const machineMode = () => ({
  startState: () => ({ key: '', quote: '', depth: 0 }),
  token(stream, state) {
    if (stream.sol() && state.quote.length === 1) state.quote = ''; // such a string ends with its line
    if (state.quote) return tokenOfText(stream, state);
    if (stream.eatSpace()) return null;
    if (stream.match(/^#.*/)) return COMMENT;
    if (!state.depth && !stream.string.slice(0, stream.pos).trim() && stream.match(/^\[\[?[^\]#]*\]\]?/)) return HEADER;
    const key = stream.match(/^([\w-]+)(?=\s*=)/);
    if (key) {
      state.key = key[1];
      return KEY;
    }
    const quote = stream.match(/^(?:'''|"""|'|")/);
    if (quote) {
      state.quote = quote[0];
      return `${STRING} ${QUOTE}`; // so that a quote that is typed before it is a new one
    }
    if (stream.match(/^[-+]?\d[\w.]*/) || stream.match(/^(?:true|false)\b/)) return NUMBER;
    const next = stream.next();
    if ('[{'.includes(next)) state.depth++;
    if (']}'.includes(next)) state.depth = Math.max(0, state.depth - 1);
    return null;
  },
  indent: (state, rest) => state.depth && !/^\s*[\]}]/.test(rest) ? 2 : 0,
  electricInput: /^\s*[\]}]$/,
  lineComment: '#',
});

/** Event texts. */
const eventsMode = () => ({
  token(stream) {
    if (stream.sol() && stream.match(/^#.*/)) return COMMENT;
    if (stream.sol() && stream.match(/^(?:run|tick|irq)(?= )/)) return WORD;
    if (stream.match(/^\d+/)) return NUMBER;
    if (stream.match(/^(?:PORTS|VERTB|EXTER)\b/)) return LABEL;
    stream.next();
    return null;
  },
  lineComment: '#',
});

/** The bodies of a machine file, roughly: for completion alone. Each has the line that it begins at, its name, labels and variables. */
function bodiesOf(lines) {
  const bodies = [{ from: 0, kind: '', name: '', labels: [], variables: new Set() }];
  lines.forEach((line, i) => {
    const head = line.match(/^\s*\[\[?\s*(\w+)/);
    if (head) bodies.push({ from: i, kind: head[1], name: '', labels: [], variables: new Set() });
    const body = bodies.at(-1), name = line.match(/^\s*name\s*=\s*["']([^"']*)["']/);
    if (name) body.name ||= name[1];
    for (const [, text] of line.matchAll(/["']([A-Za-z_]\w*):["']/g)) body.labels.push(text);
    for (const [, text] of line.matchAll(/["'](@?[A-Za-z_]\w*) = /g)) body.variables.add(text);
  });
  return bodies;
}

/** What may come at a place in a line of code: `before` is what the line has up to there, of the code alone. */
function offersInCode(before, bodies, body) {
  const shared = bodies.flatMap(it => [...it.variables].filter(one => one.startsWith('@'))), own = [...body.variables].filter(one => !one.startsWith('@'));
  const variables = [...new Set([...own, ...shared])].map(text => ({ text, says: 'variable' }));
  const given = before.replace(/^@?\w+ = /, '');
  if (!given.includes(' ')) return [...Object.values(WORDS).map(it => ({ text: it.name, says: usageOf(it).slice(it.name.length).replace(/^,/, '').trim() })), ...(given === before ? variables.map(it => ({ ...it, text: `${it.text} = ` })) : [])];
  const word = WORDS[given.split(' ')[0]], place = given.split(' ').length - 2, kind = word?.arguments[place]?.is;
  const tasks = bodies.filter(it => it.kind === 'task'), ports = bodies.flatMap(it => it.ports ?? []);
  if (kind === 'label') return body.labels.map(text => ({ text, says: 'label' }));
  if (kind === 'task') return [...tasks.map((it, i) => ({ text: String(i + 1), says: `task ${it.name}` })), ...variables];
  if (kind === 'softint') return bodies.filter(it => it.kind === 'softint').map(it => ({ text: `"${it.name}"`, says: 'software interrupt' }));
  if (kind === 'name') return [...tasks.map(it => ({ text: `"${it.name}"`, says: 'task' })), ...bodies.filter(it => it.kind === 'library').map(it => ({ text: `"${it.name}"`, says: 'library' })), ...ports];
  return variables;
}

/** The names under which ports are added, for completion. */
const portsIn = text => [...new Set([...text.matchAll(/AddPort \S+ \\?"([^"\\]+)/g)].map(it => it[1]))].map(name => ({ text: `"${name}"`, says: 'port' }));

/** What completes the text of a machine file at the caret. */
function completion(editor) {
  const { line, ch } = editor.getCursor(), text = editor.getLine(line).slice(0, ch), inside = text.match(/^\s*(?:code\s*=\s*\[\s*)?(?:["'][^"']*["'],\s*)*(["'])((?:(?!\1).)*)$/);
  const lines = editor.getValue().split('\n'), bodies = bodiesOf(lines), body = bodies.findLast(it => it.from <= line);
  body.ports = portsIn(editor.getValue());
  const state = editor.getStateAfter(line, true), isCode = inside && editor.getTokenAt({ line, ch }).state.key === 'code';
  const part = text.match(/["@]?[\w.]*$/)[0], keys = Object.entries(KEYS[body.kind] ?? {});
  const offers = isCode ? offersInCode(inside[2], bodies, body) : inside || state.quote ? [] : /^\s*\[/.test(text) ? Object.keys(KEYS).filter(it => it).map(it => ({ text: `[[${it}]]`, says: 'table' })) : keys.map(([key, says]) => ({ text: `${key} = `, says }));
  const from = /^\s*\[\[?\w*$/.test(text) ? text.indexOf('[') : ch - part.length, begun = text.slice(from);
  const list = offers.filter(it => it.text.toLowerCase().startsWith(begun.toLowerCase()) && it.text !== begun);
  const render = (place, _all, it) => place.append(made('b', it.text.trim()), made('small', it.says.slice(0, 70)));
  return { list: list.map(it => ({ text: it.text, says: it.says, render })), from: CodeMirror.Pos(line, from), to: CodeMirror.Pos(line, ch) };
}

/** The part of a machine file that folds at a line: a table, up to the next one. */
function foldsAt(editor, { line }) {
  if (!/^\s*\[/.test(editor.getLine(line))) return undefined;
  let last = line + 1;
  while (last < editor.lineCount() && !/^\s*\[\[?\w/.test(editor.getLine(last))) last++;
  while (last > line + 1 && !editor.getLine(last - 1).trim()) last--;
  return last > line + 1 ? { from: CodeMirror.Pos(line, editor.getLine(line).length), to: CodeMirror.Pos(last - 1, editor.getLine(last - 1).length) } : undefined;
}
