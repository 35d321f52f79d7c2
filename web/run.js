// A run that is shown: its picture, its trace and its states. All of it comes from the library.

/** How many steps the trace keeps at a time, how many states are kept, and the most steps that a picture shows. */
const TRACED = 3000, STATES_KEPT = 64, MOST_PICTURED = 160;

/** The log has also the words that print nothing. */
const WITH_PLAIN_WORDS = 1;

/** How many bytes a buffer has for what is often long. */
const ROOMY = 1 << 25;

/** The events of a text: each with its line, what it is, and its first and last step. */
function eventsOf(text) {
  const found = [];
  let step = 0;
  text.split('\n').forEach((line, i) => {
    const match = line.match(/^(run|tick|irq) (\w+)$/);
    if (!match) return;
    const count = match[1] === 'irq' ? 1 : Number(match[2]);
    found.push({ line: i + 1, kind: match[1], what: match[2], from: step + 1, to: step + count });
    step += count;
  });
  return found;
}

/** How many lines some bytes have. */
function linesIn(bytes) {
  let lines = 0;
  for (let at = 0; at < bytes.length; at++) if (bytes[at] === 10) lines++;
  return lines;
}

class Run {
  constructor(library, texts) {
    this.library = library;
    this.texts = texts;
    this.events = eventsOf(decoded(texts[1]));
    this.end = 0; // the number of its last step, tick or request
    this.alert = null; // the row of the alert that ended it
    this.pictures = new Map();
    this.states = new Map();
    this.log = null; // { from, to, rows }
  }

  ask(name, ...numbers) { return this.library.ask(name, this.texts, numbers, name === 'execsim_log' ? ROOMY : 1 << 21); }

  /** Reads both texts and starts the machine; answers the first answer that is a refusal, or null. */
  async begin() {
    const answer = await this.ask('execsim_state', 0n);
    if (!isThere(answer)) return answer;
    this.end = Number(answer.text().match(/^.* after step \d+ of (\d+)\n/)[1]);
    this.states.set(0, partsOf(answer.text()));
    return null;
  }

  /** The trace, whole: the answer whose contract is the headline. Another worker can make the call, beside those for what is shown. */
  whole(library = this.library) {
    return (this.wholly ??= library.ask('execsim_run', this.texts, [], ROOMY).then(answer => (this.trace = answer)));
  }

  /** How many lines the trace has. */
  get lines() { return (this.counted ??= linesIn(this.trace.bytes)); }

  /** The picture of the part of the run that a step is in, if that many steps are shown. */
  async pictureAt(step, count) {
    const from = count * Math.floor(Math.max(0, step - 1) / count), to = Math.min(this.end, from + count), key = `${from} ${to}`;
    if (!this.pictures.has(key)) {
      const answer = await this.ask('execsim_picture', BigInt(from), BigInt(to));
      if (this.pictures.size > 8) this.pictures.clear();
      this.pictures.set(key, { from, to, text: answer.text(), isDrawn: isThere(answer) });
    }
    return this.pictures.get(key);
  }

  /** The rows of a stretch of the log; one that an alert has stopped ends with the alert's. */
  async rows(from, to) {
    const answer = await this.ask('execsim_log', BigInt(from), BigInt(to), WITH_PLAIN_WORDS);
    if (!isThere(answer)) throw new Error(answer.text());
    const rows = answer.text().split('\n').filter(line => line).map(line => JSON.parse(line));
    if (answer.status === ALERTED && rows.length) this.endsWith(rows.findLast(row => row.trace !== undefined));
    return rows;
  }

  /** Takes the row of the alert that ends the run. */
  endsWith(row) {
    if (!row) return;
    row.isAlert = true;
    this.alert = row;
    this.end = row.step;
  }

  /** The rows of the part of the run that a step is in. */
  async rowsAt(step) {
    if (this.log && step >= this.log.from && step <= this.log.to) return this.log;
    const from = TRACED * Math.floor(step / TRACED), to = Math.min(this.end, from + TRACED - 1), rows = await this.rows(from, to);
    return (this.log = { from, to: Math.min(to, this.end), rows });
  }

  /** What the machine shows after a step, as parts; null before the start. */
  async stateAt(step) {
    if (step < 0) return null;
    if (!this.states.has(step)) {
      const answer = await this.ask('execsim_state', BigInt(step));
      if (this.states.size >= STATES_KEPT) this.states.delete(this.states.keys().next().value);
      this.states.set(step, partsOf(answer.text()));
    }
    return this.states.get(step);
  }

  /** The next step after one, or the last one before it, at which what is read of a state is other than it was; or how far that was looked for. */
  async changeOf(read, step, isBack, isOver) {
    const end = performance.now() + LONGEST_LOOK, way = isBack ? -1 : 1;
    let at = isBack ? step - 1 : step, value = at < 0 ? undefined : read(await this.stateAt(at));
    while (performance.now() < end && !isOver()) {
      const places = Array.from({ length: STATES_AT_ONCE }, (_it, i) => at + way * (i + 1)).filter(it => it >= 0 && it <= this.end);
      if (!places.length) return { isThere: false, isWhole: true };
      const values = (await Promise.all(places.map(it => this.stateAt(it)))).map(read), other = values.findIndex(it => it !== value);
      if (other >= 0) return { isThere: true, step: isBack ? places[other] + 1 : places[other] };
      at = places.at(-1);
    }
    return { isThere: false, isWhole: false, step: at };
  }

  /** Finds the alert that ended the run, if the log did not come to it yet: the first step by which the log says that the machine is stopped. */
  async findAlert() {
    if (this.alert || (await this.whole()).status !== ALERTED) return;
    let low = 0, high = this.end;
    while (low < high) {
      const middle = Math.floor((low + high) / 2), { status } = await this.ask('execsim_log', BigInt(middle), BigInt(middle), 0);
      if (status === ALERTED) high = middle; else low = middle + 1;
    }
    await this.rows(low, low);
  }

  /** The event that a step is of. */
  eventAt(step) {
    let low = 0, high = this.events.length - 1;
    while (low < high) {
      const middle = (low + high) >> 1;
      if (this.events[middle].to < step) low = middle + 1; else high = middle;
    }
    return step > 0 ? this.events[low] : undefined;
  }

  /** Compares the trace column of what is shown with the proved trace: whether they are the same, and how that was seen. */
  compare({ from, to, rows }) {
    const column = rows.filter(row => row.trace !== undefined).map(row => `${row.trace}\n`).join(''), { bytes } = this.trace, isStart = from === 0, isEnd = to === this.end;
    const part = encoded(column), same = at => at >= 0 && part.every((byte, i) => byte === bytes[at + i]);
    if (isStart && isEnd) return { isSame: part.length === bytes.length && same(0), words: 'The lines of the trace are, byte for byte, the answer of `execsim_run`' };
    if (isStart) return { isSame: same(0), words: 'The lines of the trace are, byte for byte, the beginning of the answer of `execsim_run`' };
    if (isEnd) return { isSame: same(bytes.length - part.length), words: 'The lines of the trace are, byte for byte, the end of the answer of `execsim_run`' };
    this.whole_ ??= `\n${decoded(bytes)}`;
    return { isSame: this.whole_.includes(`\n${column}`), words: 'The lines of the trace are in the answer of `execsim_run`, in this order and with none between' };
  }
}
