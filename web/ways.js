// Ways: event texts with one more interrupt, what is seen of each, and how that is read.

/** The line of an interrupt of a kind. */
const lineOfKind = kind => kind === 'tick' ? 'tick 1' : `irq ${kind}`;

/** An event text with one more interrupt after so many steps, ticks and requests; all other lines stay. */
function withInterrupt(text, place, kind) {
  const event = eventsOf(text).find(it => place <= it.to), lines = text.split('\n'), line = lineOfKind(kind);
  if (!event) return `${text}${text === '' || text.endsWith('\n') ? '' : '\n'}${line}\n`;
  const before = place - (event.from - 1), after = event.to - place, part = count => count ? [`${event.kind} ${event.kind === 'irq' ? event.what : count}`] : [];
  const made = event.kind === 'irq' ? (before ? [...part(1), line] : [line, ...part(1)]) : [...part(before), line, ...part(after)];
  lines.splice(event.line - 1, 1, ...made);
  return lines.join('\n');
}

/** A report of a search: its head, what it says of itself, and its outcomes, each with its count, its first way and its lines. */
function readReport(text) {
  const [head, ...parts] = text.trim().split(/\n\n(?=outcome \d+: |lines above: )/).filter(part => !part.startsWith('lines above: ')), [, kinds = '', ways = '0'] = head.match(/ more of ([\w,]+): (\d+) ways?/) ?? [];
  const outcomes = parts.map(part => {
    const [first, ...lines] = part.split('\n'), [, count, way] = first.match(/^outcome \d+: (\d+) ways?, first (.*)$/);
    return { count: Number(count), way, lines: lines.map(line => line.replace(/^ {2}/, '')) };
  });
  return { head: head.split('\n'), kinds: kinds.split(',').filter(it => it), ways: Number(ways), outcomes };
}

/** Whether an outcome ends in an alert; and whether a task waits at its end. */
const hasAlert = outcome => outcome.lines.some(isAlertLine), hasWaiting = outcome => outcome.lines.some(line => / waits$/.test(line));

/** The first line of an outcome that another does not have there, with that one's; null if they are the same. */
function firstOtherLine(outcome, base) {
  const at = outcome.lines.findIndex((line, i) => line !== base.lines[i]);
  if (at >= 0) return { line: outcome.lines[at], was: base.lines[at] ?? 'the end' };
  return base.lines.length > outcome.lines.length ? { line: 'the end', was: base.lines[outcome.lines.length] } : null;
}

/** The letter of an outcome: `·` is what comes of the events as they are. */
const letterOf = number => number === 0 ? '·' : number <= 26 ? String.fromCharCode(64 + number) : String(number);

/** A line as it is said in a few words. */
const inShort = line => line.replace(/\$0*([0-9A-F]+)/g, '$$$1');
