// What is looked for in the trace: a text, or a switch to a task, a call of a word, a variable that is set, or a line with a finding.

/** The lines of the machine file that have a finding. */
let FINDINGS_AT = new Set();

/** The kinds of rows that are looked for by a name: what is written before it, and the name in a row, or undefined if the row is of another kind. */
const KINDS_OF_ROWS = [
  ['switch to ', row => row.trace?.match(/^switch (\S+)$/)?.[1]],
  ['call of ', row => row.source && readRow(row).word?.name],
  ['set ', row => row.source && setBy(readRow(row))],
  ['finding at ', row => FINDINGS_AT.has(row.line) ? `line ${row.line}` : undefined],
];

/** The variable that a command sets, if it has answered: one of a task with its name. */
const setBy = ({ who, target, answer }) => !answer || !target ? undefined : target.startsWith('@') ? target : `${target} of ${who}`;

/** Whether a row is one that is looked for by some words. */
function isLookedFor(words) {
  const [begin, nameIn] = KINDS_OF_ROWS.find(([it]) => words.startsWith(it)) ?? [], low = words.toLowerCase();
  if (begin) return row => nameIn(row) === words.slice(begin.length).trim();
  return row => `${textOf(row)}\n${row.source ?? ''}`.toLowerCase().includes(low);
}

/** What can be looked for in some rows by a name. */
function lookUps(rows) {
  return KINDS_OF_ROWS.flatMap(([begin, nameIn]) => [...new Set(rows.map(nameIn).filter(it => it))].sort().map(name => `${begin}${name}`));
}
