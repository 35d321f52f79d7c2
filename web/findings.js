// What execsim_check says of the texts: findings that begin with a file, a line and a column, how grave they are, a rule and a reason.

const FIRST = /^(machine\.toml|run\.events)(?::(\d+):(\d+))?: (error|warning|note)\[([\w-]+)\]: (.*)$/;

/** The findings of an answer, each with its place, the lines that follow, what is marked, and its kind. */
function findingsOf(answer) {
  const found = [];
  for (const line of answer.text().split('\n')) {
    const match = line.match(FIRST);
    if (match) {
      const [, file, row, column, severity, rule, why] = match;
      found.push({ file, line: Number(row ?? 0), column: Number(column ?? 0), length: 0, head: `${severity}[${rule}]`, why, kind: kindOf(severity, rule), below: [] });
    } else if (found.length && line) found.at(-1).below.push(line.replace(/^ {4}/, ''));
  }
  for (const one of found) finish(one);
  return found;
}

/** Tells apart what is below the first line of a finding: the place in words, and the line that is shown with its marks. */
function finish(one) {
  const marks = one.below.at(-1)?.match(/^( *)(\^+)$/);
  if (marks) [one.shown, one.from, one.length] = [one.below.at(-2) ?? '', marks[1].length, marks[2].length];
  one.whose = one.below.slice(0, marks ? -2 : undefined).join(' ');
}

/** An alert, a warning, a remark or a fault of a text: the alerts are the rules without small letters. */
function kindOf(severity, rule) {
  if (severity !== 'error') return severity === 'note' ? 'remark' : 'warning';
  return /^[A-Z]+$/.test(rule) ? 'alert' : 'fault';
}

/** What is said below the marked part. */
const noteOf = finding => finding.why;
