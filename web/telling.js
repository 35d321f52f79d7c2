// A step in words: who does what on which object, what it answers, and what follows. What a row is and who acts are fields of the log.

/** A value as it is read: a task by its name, the object at an address, or the number without its leading zeros. */
function valueName(names, value, kind = '') {
  const short = value.replace(/^\$0*(?=[0-9A-F])/, '$'), task = kind === 'task' ? names[`task ${parseInt(value.slice(1), 16)}`] : undefined;
  return names[value] ? `${names[value]} (${short})` : task ? `${task} (${short})` : short;
}

/** What a row of a command says: its word, its values, its answer, whether it waits, and the alert if it is one. */
function readRow(row) {
  const text = row.isAlert ? '' : (row.trace ?? row.plain), who = row.task ?? row.body, source = row.source ?? '', [, target, call] = source.match(/^(?:(@?\w+) = )?(.*)$/);
  const said = text.slice(who.length + 1), [, done, answer] = said.match(/^(.*?)(?: -> (\S+))?$/), name = call.split(' ')[0] || said.split(' ')[0];
  return {
    who, target, call, name, word: isWord(name) ? WORDS[name] : undefined, answer, waits: / waits$/.test(done),
    values: done.match(/\$[0-9A-F]{8}|"[^"]*"/g) ?? [], written: call.split(' ').slice(1), alert: row.isAlert ? row.trace.split(' ')[1] : '',
  };
}

/** The values of a call with what is written for them. */
function valuesInWords({ values, written, word }, names) {
  return values.map((value, i) => {
    const name = valueName(names, value, word?.arguments[i]?.is), isNew = values.length === written.length && /^@?[a-z]/.test(written[i]) && !name.split(' ').includes(written[i]);
    return `${names[value] ? '' : `${word?.arguments[i]?.text.split(/ or |,/)[0] ?? 'value'} `}${isNew ? `${written[i]} = ` : ''}${name}`;
  });
}

/** The first sentence of a step: what its command does. */
function sentenceOf(row, names) {
  const it = readRow(row), who = made('b', it.who), values = valuesInWords(it, names);
  if (it.alert) return [who, ' calls ', made('code', it.call), `, which is refused: alert ${it.alert}. The machine stops for good.`];
  if (!row.source) return [who, ' has come to the end of its code, and is removed.'];
  if (/^Jump/.test(it.name)) return [who, it.answer ? ` goes on at line ${it.answer.replace(':', '')}: ` : ' does not jump: ', made('code', it.call), '.'];
  if (it.name === 'Print') return [who, ` prints ${valueName(names, it.values[0] ?? '')}: `, made('code', it.call), '.'];
  if (it.word?.group === 'plain') return [who, ...(it.target ? [' sets ', made('code', it.target), ` to ${valueName(names, it.answer ?? '')}: `] : [' does ']), made('code', it.call), '.'];
  const said = [who, ' calls ', made('code', it.name), values.length ? ` with ${values.join(' and ')}` : '', '. '];
  if (it.answer) said.push(`It answers ${valueName(names, it.answer)}${it.target ? ', kept in ' : '. '}`, ...(it.target ? [made('code', it.target), '. '] : []));
  if (it.waits) said.push('What it asks for is not there, so it waits.');
  return said;
}

/** What follows a command within its step: one sentence a row. */
function rowInWords(row, names) {
  const text = row.trace ?? row.plain ?? '', [what, name] = text.split(' ');
  if (row.isAlert) return `Alert ${name} in ${row.task ?? row.body}: the machine stops for good.`;
  if (row.source) return `${row.task ?? row.body} does ${row.source}.`;
  if (row.task) return `${row.task} has come to the end of its code, and is removed.`;
  if (what === 'serve') return `${name} is served: its servers run now, whichever task runs.`;
  if (what === 'server') return `Server ${name} runs.`;
  if (what === 'timer') return `timer.device replies ${valueName(names, name)}.`;
  if (what === 'softint') return `Software interrupt ${name} runs.`;
  if (what === 'switch') return `A switch: ${name} runs from now on.`;
  return text === 'idle' ? 'No task can run: the machine is idle.' : text;
}

/** How a task is, of the first line of its part. */
const howOf = part => part?.lines[0].split(': ').slice(1).join(': ');

/** The tasks that are other than before in how they are, but for those that a switch has named. */
function tasksInWords(before, after) {
  if (!before) return [];
  return after.parts.filter(it => it.key.startsWith('task')).flatMap(part => {
    const was = howOf(before.parts.find(it => it.key === part.key)), is = howOf(part), name = part.lines[0].split(', ')[1];
    return was === is || was === undefined || (/^(runs|is ready)$/.test(was) && /^(runs|is ready)$/.test(is)) ? [] : [`${name} ${was.replace(/^runs/, 'ran').replace(/^is/, 'was').replace(/^waits/, 'waited')}; now it ${is}.`];
  });
}

/** A step without a command: how it begins. */
function quietSentence(rows, step, event) {
  if (step === 0) return ['The tasks are added, and the first one is chosen.'];
  if (rows.some(row => row.trace?.startsWith('serve '))) return [`${event === 'tick' ? 'A tick: VERTB' : 'An interrupt'} is asked for, and served between two steps.`];
  if (event === 'tick' || event === 'irq') return [`${event === 'tick' ? 'A tick: VERTB' : 'An interrupt'} is asked for. It is not served now: interrupts are disabled, so it waits in its latch; or nobody serves it.`];
  return [rows.length ? 'The machine goes on by itself.' : 'No task can run, so nothing happens.'];
}

/** A step in words: a sentence, what follows, and the word that it is about. */
function tellStep(rows, step, event, before, after) {
  const names = { ...before?.names, ...after.names }, [first] = event === 'run' ? rows : [], isCommand = Boolean(first?.task ?? first?.body);
  const sentence = isCommand ? sentenceOf(first, names) : first ? [rowInWords(first, names)] : quietSentence(rows, step, event);
  return { sentence, then: [...rows.filter(row => row !== first).map(row => rowInWords(row, names)), ...tasksInWords(before, after)], word: first?.source ? readRow(first).word : undefined };
}

/** Shows a step in words. */
function drawTelling({ sentence, then, word }, title) {
  $('now-title').textContent = title;
  $('said').replaceChildren(...sentence);
  $('then').replaceChildren(...then.map(text => made('li', text)));
  const effect = word?.effect ? [made('b', word.name), ': ', ...withCode(word.effect), '. '] : [];
  $('reference').replaceChildren(...(word ? [...effect, 'In C: ', made('code', word.c), word.sources.length ? ` (${word.sources.join('; ')})` : ''] : []));
}
