// What an exercise allows to be changed: the code of some tasks, and nothing else.

/** The tables of a machine file, each with its name, what is above its code, and its code, without comments and empty lines. */
function tablesOf(machine) {
  const lines = machine.split('\n').map(line => line.replace(/\s*#.*$/, '').trim()).filter(line => line), tables = [{ name: 'the head of the file', head: [], code: [] }];
  for (const line of lines) {
    if (line.startsWith('[[')) tables.push({ name: line, head: [], code: [] });
    const table = tables.at(-1), name = line.match(/^name\s*=\s*["']([^"']*)/)?.[1];
    if (name !== undefined) table.name = name;
    table[table.code.length || /^code\b/.test(line) ? 'code' : 'head'].push(line);
  }
  return tables;
}

/** What is other than it was and may not be, or an empty text. */
function otherThanAllowed(changes, [machine, events], [nowMachine, nowEvents]) {
  const was = tablesOf(machine), is = tablesOf(nowMachine), areEqual = (a, b) => a.join('\n') === b.join('\n');
  const commands = text => text.split('\n').filter(line => line && !line.startsWith('#'));
  if (!areEqual(commands(events), commands(nowEvents))) return 'the events are';
  if (!areEqual(was.map(it => it.name), is.map(it => it.name))) return 'the tables, or their names, are';
  const other = was.find((it, i) => !areEqual(it.head, is[i].head) || (!changes.includes(it.name) && !areEqual(it.code, is[i].code)));
  if (!other) return '';
  return changes.includes(other.name) ? `what is above the code of \`${other.name}\` is` : `\`${other.name}\` is`;
}
