// Lines of the state that are watched: they stay above the state at each step, and one goes to the steps at which they changed.

/** How long a change is looked for, in milliseconds, and for how many states at a time. */
const LONGEST_LOOK = 5000, STATES_AT_ONCE = 8;

/** What a line of a state has, each with its name and its value: its variables, what is said of signals, or itself. */
function valuesIn(name, text) {
  if (/variables$/.test(name)) return text === 'none' ? [] : text.split(', ').map(it => it.split(' = '));
  const [, received, allocated, counts] = (name === 'signals' && text.match(/^received (\S+), allocated (\S+); nest counts: (.*)$/)) || [];
  return counts ? [['received signals', received], ['allocated signals', allocated], ['nest counts', counts]] : [[name, text]];
}

/** What can be watched of a part of a state: each thing with a key, what it is called, and its value. */
function thingsIn({ key, lines }) {
  const [, task, how] = lines[0].match(/^task \d+, ([^,]+), .*?: (.*)$/) ?? [], of = task ? ` of ${task}` : '', found = task ? [{ key, name: task, value: how }] : [];
  for (const line of key === 'machine' ? lines : lines.slice(1)) {
    const text = line.trim(), [, name, value] = text.match(/^((?:shared )?variables|[a-z ]+): (.*)$/) ?? [], object = text.match(/^(\$[0-9A-F]{8})\s+\d+\s+(.*)$/);
    if (object) found.push({ key: object[1], name: `${nameOfObject(object[2]) || 'memory'} at ${inShort(object[1])}`, value: inShort(object[2]) });
    else if (/^at line /.test(text)) found.push({ key: `${key} line`, name: `line${of}`, value: text.replace('at line ', '') });
    else if (name) found.push(...valuesIn(name, value).map(([it, one]) => ({ key: `${key} ${it}`, name: it + of, value: inShort(one) })));
  }
  return found;
}

/** A thing of a state by its key, or nothing if it is not there. */
const thingOf = (state, key) => state.parts.flatMap(thingsIn).find(it => it.key === key);

/** What a thing is after a step: its value, or that it is not there. */
const valueOf = (state, key) => thingOf(state, key)?.value ?? 'not there';

class Watch {
  /** `onFind` is called with the key and the name of a thing, to go to where it changed last, or next. */
  constructor(onFind) {
    this.onFind = onFind;
    this.rows = new Map(); // by the key of a thing, its row
    $('watch').addEventListener('change', () => { this.add($('watch').value); $('watch').value = ''; });
  }

  /** Watches nothing. */
  clear() {
    this.rows.clear();
    $('watched').replaceChildren();
    $('watched').hidden = true;
  }

  /** Watches a thing of the state that is shown. */
  add(key) {
    if (!thingOf(this.after, key) || this.rows.has(key)) return;
    const row = made('li'), name = made('b'), find = isBack => () => this.onFind(key, name.textContent, isBack);
    row.append(name, made('span', '', 'value'), button('‹', find(true)), button('›', find(false)), button('×', () => this.remove(key)));
    this.rows.set(key, row);
    $('watched').append(row);
    this.draw(this.before, this.after);
  }

  remove(key) {
    this.rows.get(key).remove();
    this.rows.delete(key);
    $('watched').hidden = !this.rows.size;
    $('watch').focus();
  }

  /** Shows what is watched after a step, marked if it is other than after the step before; and lists what can be watched. */
  draw(before, after) {
    Object.assign(this, { before, after });
    for (const [key, row] of this.rows) {
      const value = valueOf(after, key), isOther = before !== null && valueOf(before, key) !== value, name = thingOf(after, key)?.name;
      if (name !== undefined) nameRow(row, name);
      row.querySelector('.value').textContent = value;
      row.classList.toggle('changed', isOther);
      row.classList.toggle('long', value.length > 16);
    }
    $('watched').hidden = !this.rows.size;
    if (document.activeElement !== $('watch')) this.list();
  }

  /** Lists what can be watched, by its part, if it is other than what is listed. */
  list() {
    const names = JSON.stringify(this.after.parts.map(part => thingsIn(part).map(it => it.name)));
    if (names === this.listed) return;
    this.listed = names;
    const groups = this.after.parts.map(part => {
      const group = document.createElement('optgroup'), [, task] = part.lines[0].match(/^task \d+, ([^,]+)/) ?? [];
      group.label = task ?? part.key;
      group.append(...thingsIn(part).map(it => new Option(it.name, it.key)));
      return group;
    });
    $('watch').replaceChildren(new Option('Watch ..', ''), ...groups);
  }
}

/** Gives a row its name, and its buttons theirs: what is at an address has another name later. */
function nameRow(row, name) {
  const [title, , ...tools] = row.children;
  title.textContent = name;
  [`Where ${name} changed last`, `Where ${name} changed next`, `Watch ${name} no more`].forEach((words, i) => {
    tools[i].setAttribute('aria-label', words);
    tools[i].title = words;
  });
}
