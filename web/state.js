// What a machine shows after a step, as parts, and which of their lines are other than after the step before.

/** The parts of the page of a state: the machine, each task, each region, each with its lines; and what is at each address. */
function partsOf(text) {
  const parts = [], names = {};
  for (const block of text.replace(/^.*\n\n/, '').trimEnd().split('\n\n')) {
    const lines = block.split('\n'), key = lines[0].match(/^(?:task|region) \d+/)?.[0] ?? 'machine';
    parts.push({ key, lines });
    if (key.startsWith('task')) names[key] = lines[0].split(', ')[1];
    for (const line of lines) {
      const object = key.startsWith('region') && line.match(/^\s+(\$[0-9A-F]{8})\s+\d+\s+(.*)$/);
      if (object && object[2] !== 'free') names[object[1]] = nameOfObject(object[2]);
    }
  }
  return { parts, names };
}

/** The name of an object: what it is, and the variable that has its address. */
function nameOfObject(text) {
  const kind = text.match(/^public port "[^"]*"|^timer request|^[a-z]+(?: "[^"]*")?/)?.[0] ?? '', holder = text.match(/\(([^(),]*)[^()]*\)$/)?.[1];
  return `${kind.replace(/^public /, '').replace(/^allocated/, 'memory')}${holder && !kind.startsWith('public') ? ` ${holder}` : ''}`;
}

/** The lines of a part, each with whether it is as it was before; and between them those that went. */
function changesOf(before, after) {
  const key = line => line.match(/^(?:task|region) \d+|^\s*(?:\$[0-9A-F]{8}|[a-z ]+:|at |in )/)?.[0] ?? line, had = new Map(before.map(line => [key(line), line])), has = new Set(after.map(key));
  const lines = after.map(text => ({ text, is: had.get(key(text)) === text ? '' : 'changed' })), gone = before.filter(line => !has.has(key(line)));
  for (const text of gone) {
    const previous = before.slice(0, before.indexOf(text)).findLast(line => has.has(key(line))), at = lines.findIndex(it => previous !== undefined && it.is !== 'gone' && key(it.text) === key(previous));
    lines.splice(at + 1, 0, { text, is: 'gone' });
  }
  return lines;
}

/** The lines of all parts of a state with their changes; `before` is null if there was no step before. */
function changedParts(before, after) {
  return after.parts.map(({ key, lines }) => {
    const old = before?.parts.find(it => it.key === key);
    return { key, lines: old ? changesOf(old.lines, lines) : lines.map(text => ({ text, is: before ? 'changed' : '' })) };
  });
}

/** The title of a part, which is its first line, with how a task is beside its name. */
function headOfPart(key, { text, is }) {
  const row = made('p', '', `head ${is}`), task = text.match(/^task (\d+), ([^,]+), (.*?): (.*)$/);
  if (!task) row.textContent = text;
  else row.append(made('b', task[2]), made('span', ` task ${task[1]}, ${task[3]}`, 'soft'), made('span', task[4], `how ${task[4].split(' ')[0]}`));
  return row;
}

/** Shows a state. */
function drawState(box, before, after) {
  box.replaceChildren(...changedParts(before, after).map(({ key, lines }) => {
    const part = made('div', '', `part ${key.split(' ')[0]}`), number = Number(key.match(/^task (\d+)/)?.[1] ?? 0);
    if (number) part.classList.add(`t${(number - 1) % 8}`);
    part.append(...lines.map((line, i) => {
      if (i === 0 && key !== 'machine') return headOfPart(key, line);
      const row = made(line.is === 'gone' ? 'del' : 'p', line.text.trim(), line.is);
      if (line.is === 'changed') row.setAttribute('aria-label', `changed: ${line.text.trim()}`);
      return row;
    }));
    return part;
  }));
}
