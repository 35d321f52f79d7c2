// "What if an interrupt came here?": under each gap between two steps a cell for each kind of interrupt, which says what outcome one more there brings.

/** The most cells that are tried of a run beyond those in view; and how long all cells in view may take, in milliseconds. */
const MOST_CELLS = 700, LONGEST_STRIP = 10000;

/** How a search that is one run is asked for: no interrupt more, of the kinds that are served, prints and end seen. */
const ONE_WAY = [0, 0, 1, 10n];

class Strip {
  /** `library` makes its calls, a few at a time, so that others come between; `isBroken` says of an outcome whether it breaks a rule; `onOpen` is called
      with a place, a kind and an outcome. */
  constructor(library, view, isBroken, onOpen) {
    Object.assign(this, { library, view, isBroken, onOpen, isOn: true, frame: null });
    this.reset();
    $('whatif').addEventListener('click', () => this.toggle());
    $('strip-cells').addEventListener('keydown', event => this.key(event));
  }

  reset() {
    this.cells = new Map();
    this.classes = [];
    this.kinds = [];
    this.trial = (this.trial ?? 0) + 1;
    this.said = '';
    this.compared = undefined;
  }

  toggle() {
    this.isOn = !this.isOn;
    $('whatif').ariaPressed = String(this.isOn);
    this.draw();
    if (this.isOn) this.fill();
  }

  /** Takes the run whose gaps are asked about. */
  begin(frame) {
    this.library.stop();
    this.reset();
    this.frame = frame;
    this.draw();
    if (this.isOn) this.fill();
  }

  /** Forgets the run, whose texts were changed. */
  end() {
    this.frame = null;
    this.reset();
    this.draw();
  }

  /** The first and the last place in view. An opened way has more steps than the run that is asked about. */
  inView() {
    const { from, to } = this.view.drawn ?? { from: 0, to: 0 };
    return { from, to: Math.min(to, this.frame.end) };
  }

  wayAt(place, kind) { return encoded(withInterrupt(decoded(this.frame.texts[1]), place, kind)); }

  /** What comes of some events, or null if they are not searched. */
  async outcomeOf(events) {
    const answer = await this.library.ask('execsim_explore', [this.frame.texts[0], events], ONE_WAY);
    return isThere(answer) ? { ...readReport(answer.text()), took: answer.took } : null;
  }

  /** Tries all cells in view, and then the others if they are few; those that were tried stay. */
  async fill() {
    if (this.compared) return;
    const { frame } = this, trial = ++this.trial, isOver = () => trial !== this.trial || frame !== this.frame;
    if (!frame) return;
    try {
      const base = await this.outcomeOf(frame.texts[1]);
      if (isOver()) return;
      if (!base) return this.refuse('Of this run no other ways are tried.');
      this.kinds = base.kinds;
      if (!this.classes.length) this.newClass(base.outcomes[0]);
      const { from, to } = this.inView(), needed = await this.timeOf(base, (to - from + 1) * this.kinds.length);
      if (isOver()) return;
      if (needed > LONGEST_STRIP) return this.refuse(`The run is long: its ${counted((to - from + 1) * this.kinds.length, 'place')} in view would take about ${shown(Math.ceil(needed / 1000))} s, and are not tried.`);
      const isFew = (frame.end + 1) * this.kinds.length <= MOST_CELLS;
      await this.tryAll(from, to, isOver);
      if (isFew && !isOver()) await this.tryAll(0, frame.end, isOver);
      if (isFew && !isOver()) this.letterInOrder();
      if (isFew && !isOver()) await this.compare(isOver);
    } catch (why) {
      if (!(why instanceof Stopped)) this.refuse(`The ways broke off: ${why.message}`);
    }
  }

  /** How long some cells will take, in milliseconds. If the call that is given says that it is too long, it is made once more: the first one of a worker
      takes longer than those that follow, and so does any that another program has held up. */
  async timeOf(base, cells) {
    const needed = base.took * cells;
    return needed > LONGEST_STRIP ? Math.min(needed, (await this.outcomeOf(this.frame.texts[1])).took * cells) : needed;
  }

  /** Gives the outcomes their letters in the order of the places that bring them: those in view were tried first, and which these are depends on the window. */
  letterInOrder() {
    const places = Array.from({ length: this.frame.end + 1 }, (_it, place) => place), tried = places.flatMap(place => this.kinds.map(kind => this.cells.get(`${kind} ${place}`)));
    const order = [...new Set([0, ...tried.filter(it => it !== undefined)])];
    this.classes = order.map(number => this.classes[number]);
    for (const [key, number] of this.cells) this.cells.set(key, order.indexOf(number));
    this.draw();
  }

  refuse(words) {
    this.said = words;
    this.draw();
  }

  async tryAll(from, to, isOver) {
    const left = [];
    for (let place = from; place <= to; place++) for (const kind of this.kinds) if (!this.cells.has(`${kind} ${place}`)) left.push([place, kind]);
    for (let at = 0; at < left.length; at += 12) {
      this.said = `${shown(at)} of ${shown(left.length)} places are tried ..`;
      this.draw();
      await Promise.all(left.slice(at, at + 12).map(([place, kind]) => this.tryOne(place, kind, isOver)));
      if (isOver()) return;
    }
    this.said = '';
    this.draw();
  }

  async tryOne(place, kind, isOver) {
    const way = this.wayAt(place, kind), report = await this.outcomeOf(way);
    if (isOver() || !report) return;
    const outcome = report.outcomes[0], text = outcome.lines.join('\n');
    let number = this.classes.findIndex(it => it.text === text);
    if (number < 0) number = this.newClass(outcome);
    if (this.cells.has(`${kind} ${place}`)) return;
    this.classes[number].count++;
    this.cells.set(`${kind} ${place}`, number);
  }

  /** A new outcome; answers its number. It is bad if it has an alert, or breaks the rule of the exercise. */
  newClass(outcome) { return this.classes.push({ ...outcome, text: outcome.lines.join('\n'), count: 0, isBad: hasAlert(outcome) || this.isBroken(outcome) }) - 1; }

  /** Compares how many cells have each outcome with one search of all ways with one more interrupt. */
  async compare(isOver) {
    const answer = await this.library.ask('execsim_explore', this.frame.texts, [1, 0, 1, 1000000n]);
    if (isOver() || !isThere(answer)) return;
    const report = readReport(answer.text()), isSame = report.outcomes.length === this.classes.length && this.classes.every((it, i) => report.outcomes.find(one => one.lines.join('\n') === it.text)?.count === it.count + (i === 0 ? 1 : 0));
    this.compared = isSame ? `These are the counts of one search of all ${counted(report.ways, 'way')}.` : 'They are not the counts of one search of all ways: please report this.';
    this.draw();
  }

  /** Another part of the run is in the picture, or it has another size. */
  pictured() {
    this.draw();
    if (this.isOn && this.frame && this.classes.length && !this.hasAll()) this.fill();
  }

  /** Whether all cells in view are tried. */
  hasAll() {
    const { from, to } = this.inView();
    for (let place = from; place <= to; place++) if (this.kinds.some(kind => !this.cells.has(`${kind} ${place}`))) return false;
    return true;
  }

  /** Draws the cells of the steps that the picture shows. */
  draw() {
    const box = $('strip'), isSeen = Boolean(this.isOn && this.frame && (this.classes.length || this.said)), stays = this.isOn && !isSeen && !box.hidden;
    box.classList.toggle('old', stays);
    if (stays) return; // until there is something new
    box.hidden = !isSeen;
    if (!isSeen) return;
    const columns = (this.view.drawn ? [...$('picture').querySelectorAll('.at')] : []).map(it => it.getBoundingClientRect()), { left } = $('picture').getBoundingClientRect(), { place, kind } = document.activeElement.dataset;
    $('strip-cells').replaceChildren(...(columns.length && this.cells.size ? [this.heads(), ...this.kinds.map((kind, i) => this.row(kind, i, columns, left))] : []));
    if (place !== undefined) $('strip-cells').querySelector(`[data-place="${place}"][data-kind="${kind}"]`)?.focus();
    this.drawClasses();
  }

  /** The headers of the columns, for a screen reader. */
  heads() {
    const row = made('div', '', 'unseen'), first = made('span', 'one more interrupt'), { from, to } = this.inView();
    row.setAttribute('role', 'row');
    first.setAttribute('role', 'columnheader');
    row.append(first);
    for (let place = from; place <= to; place++) {
      const cell = made('span', place ? `after step ${place}` : 'at the start');
      cell.setAttribute('role', 'columnheader');
      row.append(cell);
    }
    return row;
  }

  row(kind, index, columns, left) {
    const row = made('div', '', 'cells'), name = made('span', kind === 'tick' ? 'a tick' : `irq ${kind}`, 'name'), { from, to } = this.inView();
    row.setAttribute('role', 'row');
    name.setAttribute('role', 'rowheader');
    name.append(made('span', ' here', 'if-room'));
    row.append(name);
    for (let place = from; place <= to; place++) {
      const column = columns[Math.min(place - from, columns.length - 1)], x = place - from < columns.length ? column.left : column.right;
      const cell = made('span'), it = this.cell(place, kind);
      cell.setAttribute('role', 'gridcell');
      it.style.left = `${x - left - column.width / 2 + 1}px`;
      it.style.width = `${Math.max(3, column.width - 2)}px`;
      it.tabIndex = index === 0 && place === from ? 0 : -1;
      cell.append(it);
      row.append(cell);
    }
    return row;
  }

  cell(place, kind) {
    const number = this.cells.get(`${kind} ${place}`), one = this.classes[number], where = `${lineOfKind(kind)} ${place ? `after step ${place}` : 'at the start'}`;
    const it = button(one ? letterOf(number) : '', () => { if (one && this.frame && this.classes[number] === one) this.onOpen({ place, kind, number, way: this.wayAt(place, kind) }); }, one ? classOf(number, one) : 'not-yet');
    const words = one ? (number ? `outcome ${letterOf(number)}${one.isBad ? `, ${hasAlert(one) ? 'an alert' : 'which breaks the rule'}` : ''}` : 'the outcome stays') : 'not tried yet';
    it.setAttribute('aria-label', `${where}: ${words}`);
    it.title = `${where}: ${words}${one ? `\n${one.text}` : ''}`;
    it.dataset.place = place;
    it.dataset.kind = kind;
    return it;
  }

  /** The outcomes with what is other in each, those that are bad first. */
  drawClasses() {
    const [base, ...others] = this.classes, inOrder = [...others.filter(it => it.isBad), ...others.filter(it => !it.isBad)], some = [];
    if (this.said) some.push(made('p', this.said, 'all'));
    else if (base && !others.length) some.push(made('p', 'One more interrupt changes nothing that is printed, wherever it comes.', 'all'));
    $('strip-said').replaceChildren(...some, ...inOrder.map(one => this.describe(one, this.classes.indexOf(one), base)));
    $('strip-said').title = this.compared ?? '';
  }

  /** An outcome: its letter, how many places bring it, and the first line that is other. */
  describe(one, number, base) {
    const item = made('p'), other = firstOtherLine(one, base);
    item.append(made('b', letterOf(number), classOf(number, one)), ` ${counted(one.count, 'place')}: `, made('code', inShort(other?.line ?? '')), ', not ', made('code', inShort(other?.was ?? '')));
    item.title = one.text;
    return item;
  }

  /** Arrow keys go from cell to cell. */
  key(event) {
    const it = event.target.closest('button'), rows = [...$('strip-cells').querySelectorAll('.cells')].map(row => [...row.querySelectorAll('button')]);
    const y = rows.findIndex(row => row.includes(it)), x = rows[y]?.indexOf(it), moves = { ArrowLeft: [0, -1], ArrowRight: [0, 1], ArrowUp: [-1, 0], ArrowDown: [1, 0] }[event.key];
    const to = moves && rows[y + moves[0]]?.[x + moves[1]];
    if (!moves) return;
    event.preventDefault();
    event.stopPropagation();
    if (to) { it.tabIndex = -1; to.tabIndex = 0; to.focus(); }
  }
}

/** The class of an outcome's letter: a colour, or red. */
const classOf = (number, one) => one.isBad ? 'bang' : `k${number === 0 ? 0 : OTHER_COLOURS[(number - 1) % OTHER_COLOURS.length]}`;

/** The colours of outcomes, of which none is near to red. */
const OTHER_COLOURS = [7, 2, 3, 4, 5, 6];
