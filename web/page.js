// The page: what its parts do together.

const FIRST_EXAMPLE = 'ports';

/** How long nothing is typed before the texts are run, and before the address is written, in milliseconds. */
const PAUSE = 300, ADDRESS_PAUSE = 400;

/** Beside the worker for what is shown three more: one for the proved trace and the findings, one for the strip, and one for searches. */
let checker, asides, editors, view, strip, search, exercise, lesson, work, embed, examples = [];

/** The run that is shown, and the run whose events a way was opened from: the same if no way is. */
let shownRun = null, frame = null;

/** What is shown: the example that the texts are, or were before they were changed; the names of their files; and the way that is opened, if one is. */
let chosen = null, changedFrom = null, files = { machine: 'machine.toml', events: 'run.events' }, way = null;

const texts = () => Object.values(editors).map(editor => editor.bytes);

/** Says something in the line at the top: texts, and links that do something. */
function says(words, kind = '') {
  $('status').replaceChildren(...[words].flat());
  $('status').className = kind;
}

/** A link of the status line. */
const linkTo = (text, act) => button(text, act, 'link');

/** Shows the stop button while a call is made that takes more than a moment. */
async function busy(promise) {
  const shows = setTimeout(() => { $('stop').hidden = false; }, 150);
  busy.count++;
  try {
    return await promise;
  } finally {
    clearTimeout(shows);
    if (--busy.count === 0) $('stop').hidden = true;
  }
}
busy.count = 0;

/** Runs the texts as they are, and shows what comes of it. */
async function run() {
  clearTimeout(typed.timer);
  if (!editors) return;
  library.stop();
  checker?.stop();
  view.age();
  const now = texts(), long = now.findIndex(text => text.length > LIMIT);
  if (long >= 0) return says(`The ${['machine file', 'event text'][long]} has more than 4,194,304 bytes, which are not read.`, 'fault');
  try {
    await busy(runTexts(new Run(library, now)));
  } catch (why) {
    if (!(why instanceof Stopped)) says(`The simulator broke off: ${why.message}`, 'fault');
  }
}

/** Stops what is run, but for a search, which has a button of its own. */
function stop() {
  for (const one of [library, checker, asides]) one.stop();
  says('Stopped.');
}

async function runTexts(one) {
  const refused = await one.begin();
  run.last = one;
  $('status-sure').hidden = true;
  if (refused) return refuse(one, refused);
  shownRun = one;
  if (!way) strip.end();
  const whole = one.whole(checker);
  whole.catch(() => {}); // it is waited for below, unless the run is stopped before
  if (!way) frame = one;
  const beside = way ? await rowsBeside(one.texts[0], way.base) : null;
  if (one !== shownRun) return;
  await view.show(one, beside);
  const trace = await whole;
  if (trace.status === ALERTED && !one.alert) {
    says('An alert ended the run. Its step is looked for ..', 'fault');
    await one.findAlert();
    view.goTo(view.step);
  }
  if (one !== shownRun) return;
  allowSaves();
  sayEnd(one);
  sayChecked(one, view.trace);
  embed.tell({ did: 'run', end: one.end, alerted: trace.status === ALERTED, lines: one.lines });
  await check(one);
  if (one !== shownRun) return;
  if (strip.frame === frame) strip.fill(); else strip.begin(frame);
}

/** The first rows of the run that a way was opened from, which becomes the frame; null if its texts are refused. */
async function rowsBeside(machine, base) {
  if (!frame || !isSame(frame.texts[0], machine) || !isSame(frame.texts[1], base)) {
    const made = new Run(library, [machine, base]);
    if (await made.begin()) return null;
    frame = made;
  }
  return (await frame.rowsAt(0)).rows;
}

/** Says why texts are refused, and where. */
async function refuse(one, answer) {
  shownRun = null;
  allowSaves();
  strip.end();
  const words = `Refused: ${answer.status === NO_MEMORY ? 'no memory' : answer.text()}`;
  says(words, 'fault');
  embed.tell({ did: 'refused', why: words });
  const [first] = await check(one);
  if (first && run.last === one) says([words, ...(first.line ? [' in ', linkTo(`line ${first.line}`, () => editors[first.file].goTo(first.line, first.column || 1))] : []), `: ${noteOf(first)}`], 'fault');
}

/** Says how the run ended: of an alert its code, its step, its line and what it is about, each a link. */
function sayEnd(one, found = []) {
  const { trace, alert, end } = one, all = `${counted(end, 'step')}, ${counted(one.lines, 'line')} of trace`;
  $('status-sure').hidden = false;
  if (trace.status !== ALERTED) return says(`${all}, ${trace.took.toFixed(trace.took < 10 ? 1 : 0)} ms.`);
  const last = found.find(it => it.kind === 'alert'), part = [...last?.shown ?? ''].slice(last?.from, last?.from + last?.length).join('');
  const words = [linkTo(alert?.trace ?? 'An alert', () => view.goTo(one.end)), ' at ', linkTo(`step ${shown(end)}`, () => view.goTo(one.end))];
  if (alert?.line) words.push(', ', linkTo(`line ${alert.line}`, () => editors['machine.toml'].goTo(alert.line)));
  if (last) words.push(', ', linkTo(part || 'there', () => editors[last.file].goTo(last.line, last.column || 1)), `: ${last.why}`);
  says([...words, `; ${all}.`], 'fault');
}

/** Says of the trace that is shown whether it was compared with the proved one. */
function sayChecked(one, trace) {
  const sure = $('trace-sure'), [summary, text] = sure.children, isThere = one.trace && one.log && trace.rows === one.log.rows;
  if (!isThere) return;
  const { isSame, words } = one.log.compared ??= one.compare(one.log);
  sure.classList.toggle('wrong', !isSame);
  summary.textContent = isSame ? 'checked' : 'not the same';
  text.replaceChildren(...withCode(isSame ? `${words}, of which it is proved that it is the trace. Step, time, line and source are tested.` : 'The lines shown are not the answer of `execsim_run`: please report this.'));
}

/** Shows what is wrong with the texts, or how the run ends, and answers it. */
async function check(one) {
  const answer = await checker.ask('execsim_check', one.texts), found = findingsOf(answer);
  if (run.last !== one) return [];
  showFindings(found);
  if (one === shownRun) sayEnd(one, found);
  return found;
}

function showFindings(found) {
  found.forEach((one, i) => { one.id = `finding-${i}`; });
  FINDINGS_AT = new Set(found.filter(one => one.file === 'machine.toml' && one.line).map(one => one.line));
  for (const [file, editor] of Object.entries(editors)) editor.setMarks(found.filter(one => one.file === file && one.line).map(one => ({ ...one, text: noteOf(one) })));
  $('findings').replaceChildren(...(found.length ? found.map(findingItem) : [made('li', 'Nothing was found.', 'none')]));
  $('findings-tab').textContent = found.length ? `Findings: ${found.length}` : 'Findings';
}

function findingItem(one) {
  const item = made('li', '', one.kind), text = made('pre');
  item.id = one.id;
  const place = button([one.file, one.line, one.column].filter(part => part).join(':'), () => editors[one.file].goTo(one.line, one.column || 1));
  place.disabled = !one.line;
  item.append(place, ' ', one.whose || one.head);
  if (one.shown !== undefined) {
    const characters = [...one.shown], part = (from, to) => characters.slice(from, to).join('');
    text.append(part(0, one.from), made('mark', part(one.from, one.from + one.length), one.kind), part(one.from + one.length));
    item.append(text);
  }
  item.append(made('p', `${one.head}: ${one.why}`));
  return item;
}

/** What is shown, as it can be shown again. */
const current = () => ({ texts: texts(), example: chosen, changedFrom, files: { ...files }, step: view.step, part: lesson.part, way, title: titleOf(editors['machine.toml'].bytes) });

/** Runs the texts once nothing has been typed for a while. */
function typed(file) {
  if (chosen) changedFrom = chosen;
  chosen = null;
  if (file === 'events') way = null;
  else if (way) way = { ...way, said: 'The events are those of a way that was opened before the machine file was changed.' };
  showWay();
  work.unsaved.add(file);
  nameTexts();
  view.age();
  strip.end();
  search.age();
  clearTimeout(typed.timer);
  typed.timer = setTimeout(() => { work.keep(current()); run(); }, PAUSE);
}

/** Shows what the texts are called. */
function nameTexts() {
  const of = chosen ?? changedFrom, isLesson = LESSONS.some(it => it.name === of);
  $('example').options[0].text = isLesson ? `(a lesson${chosen ? '' : ', changed'})` : changedFrom ? `${changedFrom}, changed` : '(own texts)';
  $('example').value = isLesson ? '' : chosen ?? '';
  $('machine-name').textContent = files.machine;
  $('events-name').textContent = files.events;
  $('about').hidden = !exampleOf(of)?.about;
  document.title = `${exampleOf(of)?.title ?? of ?? files.machine}${chosen || !of ? '' : ', changed'}: execsim`;
  exercise.begin(of, isLesson);
}

/** Shows a pair of texts, and runs them. What was shown can be had back by Undo. */
function take(pair, keepsOld = true) {
  if (keepsOld) work.replaces(current());
  const was = chosen ?? changedFrom, is = pair.example ?? pair.changedFrom ?? null;
  if (was !== is || (!is && !way && !pair.way)) view.watch.clear();
  [chosen, changedFrom, files, way] = [pair.example ?? null, exampleOf(pair.changedFrom) ? pair.changedFrom : null, pair.files ?? { machine: 'machine.toml', events: 'run.events' }, pair.way ?? null];
  const now = texts();
  Object.values(editors).forEach((editor, i) => { if (!isSame(now[i], pair.texts[i])) editor.bytes = pair.texts[i]; });
  view.step = view.wanted = pair.step ?? 0;
  showAbout();
  lesson.begin(chosen ?? changedFrom, pair.part);
  nameTexts();
  showWay();
  search.age();
  writeAddress();
  return run();
}

/** The texts of the run that is shown, or of the one that an opened way is of. */
const frameTexts = () => [texts()[0], way?.base ?? texts()[1]];

/** Opens other events for the machine file of a run, beside that run. */
async function openWay({ texts: [machine, base], events, said, step = 0 }) {
  const { example, changedFrom: of, files: names } = current(), old = work.past.length;
  await take({ texts: [machine, events], example: way || isSame(machine, texts()[0]) ? example : null, changedFrom: of, files: names, step, way: { base, said } });
  if (!way || work.past.length === old) return;
  const at = view.trace.other, row = view.trace.rows[at];
  if (!row) return;
  $('way-said').textContent = `${said} The first line that is other: step ${row.step}, ${textOf(row)}; it was: ${textOf(view.beside[at]) || 'the end'}.`;
  view.goTo(row.step);
}

/** Opens the way of a cell of the strip. */
function openCell({ place, kind, number, way: events }) {
  const where = place ? `after step ${place}` : 'at the start', what = number ? `outcome ${letterOf(number)}` : 'the outcome stays';
  return openWay({ texts: frame.texts, events, said: `With ${lineOfKind(kind)} ${where}: ${what}.` });
}

function showWay() {
  $('way').hidden = !way;
  $('way-said').textContent = way?.said ?? '';
}

/** Marks the lines of both texts that a step comes from, and shows them. */
function cursorAt(one, step, rows, event) {
  const lines = rows.filter(row => row.line).map(row => row.line), { 'machine.toml': machine, 'run.events': events } = editors;
  machine.setLines(lines);
  if (lines.length && !machine.hasFocus) machine.show(lines[0]);
  events.setLines(event ? [event.line] : []);
  if (event && !events.hasFocus) events.show(event.line);
  if (one.trace) sayChecked(one, view.trace);
  writeAddress();
  embed.tell({ did: 'step', step, of: one.end, sentence: $('said').textContent, alerted: one.alert?.step === step });
}

/** Writes the address of what is shown, once it has not changed for a while. */
function writeAddress() {
  clearTimeout(writeAddress.timer);
  writeAddress.timer = setTimeout(writeNow, ADDRESS_PAUSE);
}

/** Writes it now. One that took long to make is not written after a later one. */
async function writeNow() {
  clearTimeout(writeAddress.timer);
  const number = writeNow.count = (writeNow.count ?? 0) + 1, [machine, events] = texts(), address = await addressOf({ example: chosen, changedFrom, texts: [machine, way?.base ?? events], way: way ? events : null, part: lesson.shown ? lesson.part : 0, step: view.step });
  if (number === writeNow.count && (address ?? '') !== location.hash) history.replaceState(null, '', address ?? location.href.split('#')[0]);
  return address;
}

/** Copies the address. */
async function copyLink() {
  const address = await writeNow();
  if (!address) return says(['These texts are too long for a link. Save them as files: ', linkTo(files.machine, () => save('save-machine')), ' ', linkTo(files.events, () => save('save-events'))], 'fault');
  const whose = location.protocol === 'file:' ? 'It opens on this computer alone: a link for others needs this page on the web' : 'It opens what is shown, for all who have it';
  work.unsaved.clear();
  try {
    await navigator.clipboard.writeText(location.href);
    says(`The link is copied: ${counted(location.href.length, 'character')}. ${whose}.`);
  } catch {
    says(`The link is in the address bar. ${whose}.`);
  }
}

/** The bytes of an answer that is not a refusal. */
function bytesIn(answer) {
  if (!isThere(answer)) throw new Error(answer.text());
  return answer.bytes;
}

const stem = () => files.machine.replace(/\.toml$/, ''), partOf = ({ from, to }) => from === 0 && to === shownRun.end ? '' : `-steps-${from}-to-${to}`;

const SAVES = {
  'save-machine': { name: () => files.machine, type: 'text/plain', bytes: () => editors['machine.toml'].bytes, saves: 'machine' },
  'save-events': { name: () => files.events, type: 'text/plain', bytes: () => editors['run.events'].bytes, saves: 'events' },
  'save-trace': { ofRun: true, name: () => `${stem()}.trace`, type: 'text/plain', bytes: async () => bytesIn(await shownRun.whole()) },
  'save-picture': { ofRun: true, name: () => `${stem()}${partOf(view.drawn)}.svg`, type: 'image/svg+xml', bytes: () => view.drawn.text },
  'save-chrome': { ofRun: true, name: () => `${stem()}.json`, type: 'application/json', bytes: async () => bytesIn(await busy(checker.ask('execsim_chrome', shownRun.texts, [0n, BigInt(shownRun.end)]))) },
};

/** Lets be saved what there is of a run. */
function allowSaves() {
  for (const [id, { ofRun }] of Object.entries(SAVES)) $(id).disabled = Boolean(ofRun) && !shownRun;
}

async function save(id) {
  const { name, type, bytes, saves } = SAVES[id], file = name();
  $('save-menu').open = false;
  says(`${file} is made ..`);
  try {
    const link = made('a'), some = await bytes();
    link.href = URL.createObjectURL(new Blob([some], { type }));
    link.download = file;
    link.click();
    setTimeout(() => URL.revokeObjectURL(link.href), 10000);
    if (saves) work.unsaved.delete(saves);
    says(`${file} is saved, ${counted(some.length, id === 'save-picture' ? 'character' : 'byte')}${id === 'save-picture' ? `: steps ${view.drawn.from} to ${view.drawn.to} of ${shown(shownRun.end)}` : ''}.`);
  } catch (why) {
    says(why instanceof Stopped ? `${file} was stopped.` : `${file} is not saved: ${why.message}`, 'fault');
  }
}

/** Opens files: one whose name ends with .events is an event text, any other a machine file; of each one at most. */
async function openFiles(list) {
  const [machine, events] = texts(), found = { machine, events }, names = { ...files }, seen = {};
  for (const file of list) {
    const which = file.name.endsWith('.events') ? 'events' : 'machine';
    if (file.size > LIMIT) return says(`${file.name} has more than 4,194,304 bytes, which are not read.`, 'fault');
    if (seen[which]) return says(`${seen[which]} and ${file.name} are both ${which === 'events' ? 'event texts' : 'machine files'}: one of each can be opened, an event text by a name that ends in .events.`, 'fault');
    try {
      found[which] = new Uint8Array(await file.arrayBuffer());
    } catch (why) {
      return says(`${file.name} cannot be read: ${why.message}`, 'fault'); // a folder, or a file that went away
    }
    names[which] = seen[which] = file.name;
  }
  if (list.length) return take({ texts: [found.machine, found.events], files: names });
}

/** The example or the lesson of a name. */
const exampleOf = name => [...examples.flatMap(topic => topic.examples), ...LESSONS].find(one => one.name === name);

function openExample(name, step = 0, events = null, part = 0) {
  const { texts: pair } = exampleOf(name), [machine, base] = pair.map(encoded);
  const opened = take({ texts: [machine, events ?? base], example: name, files: { machine: `${name}.toml`, events: `${name}.events` }, part, step, way: events ? { base, said: 'A way of this example.' } : null });
  editors['machine.toml'].show(pair[0].split('\n').findIndex(line => line && !line.startsWith('#')) + 1, 0);
  if (lesson.shown) partShown();
  return opened;
}

/** Opens a lesson; or closes the one that is shown, and keeps its texts. */
function openLesson(name, part = 0) {
  if (name) return openExample(name, exampleOf(name).parts[part].step ?? 0, null, part);
  return take({ ...current(), example: null, changedFrom: null });
}

/** Shows a step of the run of a lesson, unless its texts were changed; an opened way is left. */
function showStep(step) {
  if (!chosen) return;
  if (way) take({ ...current(), texts: [texts()[0], way.base], way: null, step });
  else view.goTo(step);
}

/** Another part of a lesson is shown: of an exercise, the code that is to be changed. */
function partShown() {
  const machine = editors['machine.toml'], name = lesson.isLast() ? exercise.rule.changes[0] : null;
  if (name) machine.show(decoded(machine.bytes).split('\n').findIndex(line => line.startsWith(`name = "${name}"`)) + 1, 0);
  writeAddress();
}

/** An exercise was judged. */
function judged(found) {
  if (found.holds) lesson.solve();
  embed.tell({ did: 'check', ...found });
}

/** Shows what an example says of itself. */
function showAbout() {
  const it = exampleOf(chosen ?? changedFrom);
  if (it?.about) it.about.forEach((text, i) => $('about').children[i].replaceChildren(...withCode(text)));
}

function listExamples() {
  const own = new Option('(own texts)', '');
  own.disabled = true;
  $('example').replaceChildren(own, ...examples.map(topic => {
    const group = document.createElement('optgroup');
    group.label = topic.title;
    group.append(...topic.examples.map(one => new Option(one.name, one.name)));
    return group;
  }));
}

/** Opens what the address says, or something else if it says nothing. If it cannot be read, that is said once the other is shown. */
async function openAddress(openOther = () => {}) {
  try {
    const found = await readAddress(location.hash);
    if (!found) return openOther();
    if (found.example !== undefined) {
      if (!exampleOf(found.example)) throw new Error(`there is no example ${found.example}`);
      return openExample(found.example, found.step, found.way, found.part);
    }
    const [machine, base] = found.texts;
    return take({ texts: [machine, found.way ?? base], changedFrom: found.of, part: found.part, step: found.step, way: found.way ? { base, said: 'A way of these events.' } : null });
  } catch (why) {
    await openOther();
    writeAddress();
    says(`The link cannot be read: ${why.constructor === Error ? why.message : 'it is cut off, or was changed'}.`, 'fault');
  }
}

/** Opens what was shown before the page was loaded again, if no address could carry it, or else an example. */
function openKept() {
  let id = null;
  try { id = sessionStorage.getItem('execsim.shown'); } catch {}
  const pair = work.pairs().find(it => it.id === id);
  return pair ? take(takenFrom(pair)) : openExample(FIRST_EXAMPLE);
}

/** Keeps own texts when the page is left. */
function keepTexts() {
  if (!chosen) work.keep(current());
  try { sessionStorage.setItem('execsim.shown', work.id); } catch {}
}

/** Makes buttons the tabs of some panels: the arrow keys go from one to the next. */
function tabs(list, onTab) {
  const choose = tab => {
    for (const one of list) { one.ariaSelected = String(one === tab); one.tabIndex = one === tab ? 0 : -1; }
    onTab(tab);
  };
  list.forEach((tab, i) => {
    tab.addEventListener('click', () => choose(tab));
    tab.addEventListener('keydown', event => {
      const way = { ArrowLeft: -1, ArrowRight: 1 }[event.key], to = list[i + way]?.hidden ? list[i + 2 * way] : list[i + way];
      if (to) { event.preventDefault(); choose(to); to.focus(); }
    });
  });
}

function listen() {
  const acts = { run, stop, link: copyLink, open: () => $('files').click(), help: () => $('about-page').showModal(), print: () => print() };
  for (const [id, act] of Object.entries(acts)) $(id).addEventListener('click', () => act());
  $('example').addEventListener('change', () => openExample($('example').value));
  $('way-back').addEventListener('click', () => take({ ...current(), texts: [texts()[0], way.base], way: null }));
  $('files').addEventListener('change', async () => { await openFiles([...$('files').files]); $('files').value = ''; });
  for (const id of Object.keys(SAVES)) $(id).addEventListener('click', () => save(id));
  tabs([...$('tabs').children], tab => { document.body.dataset.pane = tab.dataset.pane; });
  const found = [['findings-tab', 'findings-panel'], ['exercise-tab', 'exercise'], ['search-tab', 'search']];
  tabs(found.map(([id]) => $(id)), tab => { for (const [id, panel] of found) $(panel).hidden = tab.id !== id; });
  addEventListener('hashchange', () => openAddress());
  addEventListener('pagehide', keepTexts);
  addEventListener('beforeprint', () => fillPaper({ title: `execsim: ${files.machine}`, texts: texts(), view, status: $('status').textContent }));
  addEventListener('click', ({ target }) => { for (const menu of document.querySelectorAll('.menu, .sure')) if (!menu.contains(target)) menu.open = false; });
  addEventListener('dragover', event => { if (event.dataTransfer.types.includes('Files')) event.preventDefault(); });
  addEventListener('drop', event => { if (event.dataTransfer.types.includes('Files')) { event.preventDefault(); openFiles([...event.dataTransfer.files]); } });
  addEventListener('keydown', pressed);
}

/** Keys that do the same wherever the focus is. */
function pressed(event) {
  if ((event.ctrlKey || event.metaKey) && event.key === 'Enter') run();
  else if ((event.ctrlKey || event.metaKey) && event.key === 's') save(editors['run.events'].hasFocus ? 'save-events' : 'save-machine');
  else if (event.altKey && (event.code === 'Period' || event.code === 'Comma')) view.goTo(view.step + (event.code === 'Period' ? 1 : -1));
  else if ((event.ctrlKey || event.metaKey) && event.key === 'f' && event.target.closest?.('#view, #now')) $('find').select();
  else if (event.key === 'Escape') { for (const menu of document.querySelectorAll('.menu, .sure')) menu.open = false; return; }
  else return;
  event.preventDefault();
}

/** What a message of a page around this one may ask for; each answers why not, or nothing. */
const DEEDS = {
  load: async ({ machine, events, of }) => {
    if (typeof machine !== 'string' || typeof events !== 'string') return 'load is to have two texts, machine and events';
    if (of !== undefined && !exampleOf(of)) return 'of is to be the name of an example or a lesson';
    if (Math.max(encoded(machine).length, encoded(events).length) > LIMIT) return 'a text may have 4,194,304 bytes';
    await take({ texts: [encoded(machine), encoded(events)], changedFrom: of });
  },
  step: ({ step }) => {
    if (!Number.isSafeInteger(step) || step < 0) return 'step is to be a whole number, 0 or more';
    view.goTo(step);
  },
  exercise: async () => {
    if (!exercise.rule) return 'there is no exercise to what is shown';
    return exercise.check();
  },
  get: () => {
    const [machine, events] = texts().map(decoded);
    embed.tell({ did: 'get', machine, events, step: view.step });
  },
};

/** The number of lines that have a break is another, and what is played may stop elsewhere. */
function breaksChanged(count) { $('to-break').hidden = count === 0; }

/** Makes the editors. */
function makeEditors() {
  const onUndo = () => work.undo();
  CodeMirror.defineMode('machine', machineMode);
  CodeMirror.defineMode('events', eventsMode);
  editors = {
    'machine.toml': new Editor($('machine-editor'), 'Machine file', 'machine', { onChange: () => typed('machine'), onUndo, onLine: line => view.goToSuch(row => row.line === line), onBreaks: breaksChanged }),
    'run.events': new Editor($('events-editor'), 'Events', 'events', { onChange: () => typed('events'), onUndo, onLine: line => { const event = shownRun?.events.find(it => it.line === line); if (event) view.goTo(event.from); } }),
  };
}

/** Begins, with what the page carries as data, once the module is loaded. */
async function begin(carried, loads) {
  examples = carried.topics;
  takeWords(carried);
  EXERCISES = carried.exercises;
  LESSONS = carried.lessons;
  listExamples();
  view = new View({ onCursor: cursorAt, breaks: () => editors['machine.toml'].breaks, onPicture: () => strip?.pictured(), onNone: says, onFault: why => says(`The simulator broke off: ${why.message}`, 'fault') });
  makeEditors();
  await loads;
  [checker, asides] = [library.another(), library.another()];
  search = new Search({ library: library.another(), opener: checker, textsNow: texts, frameNow: frameTexts, onWay: openWay });
  exercise = new Exercise({ library: search.library, opener: checker, begun: name => exampleOf(name).texts, now: frameTexts, onWay: openWay, onJudged: judged });
  lesson = new Lesson({ onOpen: openLesson, onStep: showStep, onPart: partShown });
  strip = new Strip(asides, view, outcome => exercise.isBroken(outcome), openCell);
  work = new Work(current, take);
  embed = new Embed(DEEDS);
  listen();
  await openAddress(openKept);
  if (embed.refusal) says(embed.refusal, 'fault');
  embed.tell({ did: 'ready' });
  window.execsim = { library, exercise, lesson, view, editors, texts, strip, search, work }; // for a console, and for tests
}
