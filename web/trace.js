// The trace as a table of rows, of which only those in sight are in the document.

const COLUMNS = [['step', 'step'], ['ms', 'ms'], ['line', 'line'], ['said', 'trace'], ['source', 'source']], AS_IT_WAS = 'as it was, with its step';

/** What a row says: its line of the trace, or that of a word that prints nothing. */
const textOf = row => row?.trace ?? row?.plain ?? '';

class Trace {
  constructor(box, onStep) {
    this.box = box;
    this.rows = [];
    this.step = 0;
    this.beside = null; // the rows of the run that a way was opened from
    this.other = Infinity; // the first row that is other than in that run
    this.table = made('div', '', 'table');
    this.table.setAttribute('role', 'table');
    this.table.setAttribute('aria-label', 'Trace');
    this.table.append(this.head(), (this.body = made('div', '', 'rows')));
    this.body.setAttribute('role', 'rowgroup');
    box.replaceChildren(this.table);
    box.addEventListener('scroll', () => this.draw());
    new ResizeObserver(() => this.draw()).observe(box);
    box.addEventListener('click', ({ target }) => {
      const row = target.closest('[data-step]');
      if (row) onStep(Number(row.dataset.step));
    });
  }

  head() {
    const group = made('div'), row = made('div', '', 'row head');
    group.setAttribute('role', 'rowgroup');
    row.setAttribute('role', 'row');
    row.setAttribute('aria-rowindex', 1);
    for (const [key, title] of COLUMNS) {
      const cell = made('span', title, key);
      cell.setAttribute('role', 'columnheader');
      row.append(cell);
    }
    group.append(row);
    return group;
  }

  /** Takes rows: objects of the log, in order of their steps; and those of the run that a way was opened from, which are shown beside them from where they part. */
  setRows(rows, beside = null) {
    this.rows = rows;
    this.beside = beside;
    this.other = beside ? rows.findIndex((row, i) => textOf(row) !== textOf(beside[i])) : -1;
    if (this.other < 0) this.other = Infinity;
    this.table.querySelector('.head .source').textContent = this.other < Infinity ? AS_IT_WAS : 'source';
    this.box.classList.toggle('beside', this.other < Infinity);
    this.table.setAttribute('aria-rowcount', rows.length + 1);
    this.body.style.height = `calc(${rows.length} * var(--row))`;
    const widest = read => rows.reduce((most, row) => Math.max(most, read(row)?.length ?? 0), 0), moves = rows.some(row => row.clock_us);
    this.box.style.setProperty('--digits', String(rows.at(-1)?.step ?? 0).length);
    this.box.style.setProperty('--said', Math.min(widest(textOf), 60));
    this.box.style.setProperty('--source', Math.max(widest(row => row.source), 6));
    this.box.classList.toggle('still', !moves);
    this.draw();
  }

  /** The first row of a step or of one after it. */
  rowOf(step) {
    let low = 0, high = this.rows.length;
    while (low < high) {
      const middle = (low + high) >> 1;
      if (this.rows[middle].step < step) low = middle + 1; else high = middle;
    }
    return low;
  }

  /** The rows of a step. */
  at(step) { return this.rows.slice(this.rowOf(step), this.rowOf(step + 1)); }

  /** Marks the rows of a step and shows them, or where they would be. */
  mark(step) {
    this.step = step;
    const height = this.height(), top = this.rowOf(step) * height, rows = Math.max(1, this.at(step).length), seen = this.box.clientHeight - height;
    const { scrollTop } = this.box;
    if (top < scrollTop || top + Math.min(rows * height, seen) > scrollTop + seen) this.box.scrollTop = Math.max(0, top - Math.max(0, seen - rows * height) / 3);
    this.draw();
  }

  height() { return parseFloat(getComputedStyle(this.box).getPropertyValue('--row')); }

  draw() {
    const height = this.height(), first = Math.max(0, Math.floor(this.box.scrollTop / height) - 10);
    const last = Math.min(this.rows.length, first + Math.ceil(this.box.clientHeight / height) + 20);
    this.body.replaceChildren(...this.rows.slice(first, last).map((row, i) => this.row(row, first + i, height)));
  }

  /** The time of a row, if it is other than that of the row above it. */
  time(index) {
    const now = this.rows[index].clock_us, before = this.rows[index - 1]?.clock_us ?? 0;
    return now !== undefined && now !== before ? (now / 1000).toFixed(3) : '';
  }

  /** What is in the last column of a row: its source; or, of a way, what was there in the run that it was opened from, after its step. */
  besideText(index, row) {
    if (this.other === Infinity) return row.source ?? '';
    const was = index < this.other ? undefined : this.beside[index];
    return was ? `${was.step}  ${textOf(was)}` : '';
  }

  row(it, index, height) {
    const row = made('div', '', it.step === this.step ? 'row here' : 'row');
    row.dataset.step = it.step;
    if (it.step === this.step) row.setAttribute('aria-current', 'step');
    if (it.trace === undefined) row.classList.add('plain');
    if (it.isAlert) row.classList.add('alert');
    if (index >= this.other) row.classList.add('other');
    row.style.top = `${index * height}px`;
    row.setAttribute('role', 'row');
    row.setAttribute('aria-rowindex', index + 2);
    const texts = { step: it.step, ms: this.time(index), line: it.line ? `:${it.line}` : '', said: textOf(it), source: this.besideText(index, it) };
    for (const [key] of COLUMNS) {
      const cell = made('span', texts[key], key);
      cell.setAttribute('role', 'cell');
      if (String(texts[key]).length > (this.other < Infinity ? 14 : 40)) cell.title = texts[key];
      row.append(cell);
    }
    return row;
  }
}
