// The panels of a run, and its cursor.

/** How wide a column of the picture and its names are, and how much the picture may shrink, when the number of steps that it shows is chosen. */
const COLUMN = 24, NAMES = 175, SMALLEST = 0.87;

/** What is above the columns of a picture: its title, which the page has elsewhere. */
const TITLE_HEIGHT = 56;

/** How many parts of the log further a row is looked for. */
const PARTS_FURTHER = 20;

/** How long a step is shown while the run is played, in milliseconds. */
const BEAT = 700;

class View {
  /** `onCursor` is called with the run, the step, its rows and its event; `onPicture` when a picture is drawn or its size is another; `onFault` with an error.
      `onNone` with a sentence if there is no step to go to. `breaks` gives the lines of the machine file that have a break. */
  constructor({ onCursor, onPicture, onFault, onNone, breaks }) {
    Object.assign(this, { onCursor, onPicture, onFault, onNone, breaks });
    this.run = null;
    this.step = 0;
    this.wanted = null; // the step that the next run is to be shown at, which the one that is shown may not have
    this.zoom = 0; // how many steps the picture shows; 0 is as many as fit
    this.beside = null; // the rows of the run that a way was opened from
    this.trace = new Trace($('trace'), step => this.goTo(step));
    this.watch = new Watch((key, name, isBack) => this.goToChange(key, name, isBack));
    $('step').addEventListener('input', () => this.goTo(Number($('step').value)));
    for (const [id, step] of [['first', () => 0], ['back', () => this.step - 1], ['forward', () => this.step + 1], ['last', () => this.run?.end ?? 0]]) $(id).addEventListener('click', () => this.goTo(step()));
    $('play').addEventListener('click', () => this.play());
    $('narrow').addEventListener('click', () => this.zoomTo(Math.ceil(this.count() / 2)));
    $('wide').addEventListener('click', () => this.zoomTo(this.count() * 2));
    $('picture').addEventListener('click', ({ target }) => {
      const column = target.closest('[data-step]');
      if (column) this.goTo(Number(column.dataset.step));
    });
    $('find').addEventListener('keydown', async event => {
      if (event.key !== 'Enter' || !$('find').value) return;
      event.preventDefault();
      $('find').ariaInvalid = String(!await this.find($('find').value, event.shiftKey));
    });
    $('find').addEventListener('input', () => { $('find').ariaInvalid = 'false'; });
    $('find').addEventListener('focus', () => $('look-ups').replaceChildren(...lookUps(this.trace.rows).map(it => new Option(it, it))));
    $('to-break').addEventListener('click', () => this.goToBreak());
    for (const part of ['view', 'now']) $(part).addEventListener('keydown', event => this.key(event));
    new ResizeObserver(() => this.resized()).observe($('picture'));
  }

  /** Steps by keys where no text is written. */
  key(event) {
    if (event.ctrlKey || event.metaKey || event.altKey || event.target.closest('input, select, form, #strip')) return;
    const isState = event.target.closest('#state') && /Up|Down/.test(event.key); // there these scroll
    const steps = { ArrowRight: this.step + 1, ArrowLeft: this.step - 1, ArrowDown: this.step + 1, ArrowUp: this.step - 1, PageDown: this.step + 10, PageUp: this.step - 10, Home: 0, End: this.run?.end };
    if (isState || !(event.key in steps)) return;
    event.preventDefault();
    this.goTo(steps[event.key]);
  }

  /** How many steps the picture shows. */
  count() {
    const fits = Math.floor(($('picture').clientWidth / SMALLEST - NAMES) / COLUMN);
    return Math.max(1, Math.min(MOST_PICTURED, this.zoom || Math.max(12, fits)));
  }

  zoomTo(count) {
    this.zoom = Math.max(1, Math.min(MOST_PICTURED, count));
    this.goTo(this.step);
  }

  /** The picture shows as many steps as fit its new width. */
  resized() {
    const width = $('picture').clientWidth;
    if (!this.run || !width || width === this.width) return;
    this.width = width;
    this.goTo(this.step);
    this.onPicture();
  }

  /** Shows a run, with the cursor where it was, if there is such a step. */
  show(run, beside = null) {
    this.run = run;
    this.beside = beside;
    this.drawn = null;
    this.stopPlaying();
    if (this.wanted !== null) [this.step, this.wanted] = [this.wanted, null];
    document.body.classList.remove('stale');
    return this.move(this.step, true);
  }

  /** Shows that what is seen is not of the texts as they are now. */
  age() { document.body.classList.add('stale'); }

  /** Moves the cursor, if there is a run. */
  goTo(step) {
    if (this.run) this.move(step, false).catch(why => { if (!(why instanceof Stopped)) this.onFault(why); });
  }

  /** Finds some words in the trace: goes to the next step with such a row, or to the one before; answers whether there is any in the part that is shown. */
  async find(words, isBack) {
    const isSuch = isLookedFor(words);
    await this.goToSuch(isSuch, isBack);
    return this.trace.rows.some(isSuch);
  }

  /** Moves the cursor to the next step that has such a row, or to the one before, looking some parts of the log further; or else to one of the part that
      is shown. Answers whether there is one further. */
  async goToSuch(isSuch, isBack = false) {
    const { run } = this, rows = this.trace.rows.filter(isSuch), next = isBack ? rows.findLast(one => one.step < this.step) : rows.find(one => one.step > this.step);
    if (!run || next) {
      this.goTo(next?.step ?? this.step);
      return Boolean(next);
    }
    try {
      const { from: begin } = run.log, isThere = from => from >= 0 && from <= run.end;
      for (let part = 1, from = begin; part <= PARTS_FURTHER && isThere(from += isBack ? -TRACED : TRACED); part++) {
        const more = await run.rows(from, Math.min(run.end, from + TRACED - 1)), found = isBack ? more.findLast(isSuch) : more.find(isSuch);
        if (run !== this.run) return true;
        if (found) {
          await this.move(found.step, false);
          return true;
        }
      }
      this.goTo(rows.at(isBack ? -1 : 0)?.step ?? this.step);
      return false;
    } catch (why) {
      if (!(why instanceof Stopped)) this.onFault(why);
      return true;
    }
  }

  /** Moves the cursor to the step at which something of the state changed last, or changes next. If there is none, or none as far as is looked, it says so. */
  async goToChange(key, name, isBack) {
    const { run, step } = this, isOver = () => run !== this.run || step !== this.step;
    if (!run) return;
    try {
      const found = await run.changeOf(state => valueOf(state, key), step, isBack, isOver);
      if (isOver()) return;
      if (found.isThere) this.goTo(found.step);
      else this.onNone(`${name} changes at no ${isBack ? 'earlier' : 'later'} step${found.isWhole ? '' : `, as far as was looked: ${isBack ? 'down' : 'up'} to ${shown(found.step)}`}.`);
    } catch (why) {
      if (!(why instanceof Stopped)) this.onFault(why);
    }
  }

  /** Moves the cursor to the next step of a line that has a break. If there is none as far as is looked, it says so and how far; without a run, nothing. */
  async goToBreak() {
    const { run } = this, last = run ? run.log.from + TRACED * (PARTS_FURTHER + 1) - 1 : 0;
    if (!run || await this.goToSuch(row => this.breaks().includes(row.line))) return;
    this.onNone(`No later step${last < run.end ? ` up to ${shown(last)}` : ''} is at a line that has a break.`);
  }

  /** Goes a step further by itself until the end, or a line that has a break; or no more. */
  play() {
    if (this.playing || !this.run) return this.stopPlaying();
    if (this.step >= this.run.end) this.goTo(0);
    const begun = this.step, isOver = () => this.step >= this.run.end || (this.step !== begun && this.trace.at(this.step).some(row => this.breaks().includes(row.line)));
    this.playing = setInterval(() => isOver() ? this.stopPlaying() : this.goTo(this.step + 1), BEAT);
    $('play').textContent = 'Pause';
    $('play').ariaPressed = 'true';
  }

  stopPlaying() {
    clearInterval(this.playing);
    this.playing = 0;
    $('play').textContent = 'Play';
    $('play').ariaPressed = 'false';
  }

  /** Moves the cursor. If moves come faster than the library answers, those between are left out. */
  async move(step, isNew) {
    this.step = Math.max(0, Math.min(step, this.run.end));
    this.drawPlace();
    if (this.moving && !isNew) { this.next = true; return; }
    this.moving = true;
    try {
      do {
        this.next = false;
        await this.draw(this.run, this.step);
        if (this.step > this.run.end) [this.step, this.next] = [this.run.end, true];
      } while (this.next);
    } finally {
      this.moving = false;
    }
  }

  /** Gets and shows what belongs to a step. */
  async draw(run, step) {
    const log = await run.rowsAt(step);
    if (step > run.end) return;
    const [picture, after, before] = await Promise.all([run.pictureAt(step, this.count()), run.stateAt(step), run.stateAt(step - 1)]);
    if (run !== this.run) return;
    this.drawPicture(picture, step);
    this.drawTrace(log, step);
    drawState($('state'), before, after);
    this.watch.draw(before, after);
    const rows = this.trace.at(step), event = run.eventAt(step);
    drawTelling(tellStep(rows, step, event?.kind, before, after), step ? `Step ${shown(step)}` : 'The start');
    this.drawPlace();
    $('step').setAttribute('aria-valuetext', `${$('where').textContent}: ${$('said').textContent}`);
    this.onCursor(run, step, rows, event);
  }

  drawPicture(picture, step) {
    const box = $('picture');
    if (this.drawn !== picture) {
      this.drawn = picture;
      box.classList.toggle('none', !picture.isDrawn);
      if (picture.isDrawn) box.innerHTML = picture.text; else box.textContent = picture.text;
      if (picture.isDrawn) this.fit(box.firstElementChild);
      this.onPicture();
    }
    for (const one of box.querySelectorAll('.at.here')) one.classList.remove('here');
    const column = box.querySelector(`.at[data-step="${step}"]`), cursor = box.querySelector('.cursor');
    column?.classList.add('here');
    cursor?.toggleAttribute('hidden', !column);
    for (const name of column && cursor ? ['x', 'y', 'width', 'height'] : []) cursor.setAttribute(name, column.getAttribute(name));
  }

  /** Makes a picture as wide as its panel: without its title, and of few steps only as far as they go. */
  fit(svg) {
    const { width, height } = svg.viewBox.baseVal, place = it => ['x', 'y', 'width', 'height'].map(name => Number(it.getAttribute(name)));
    const [x, y, across, down] = place([...svg.querySelectorAll('.at')].at(-1) ?? svg), last = across ? { x, y, width: across, height: down } : undefined;
    const right = last ? last.x + last.width + 40 : width, isFew = right < 0.7 * width, wide = isFew ? right : width;
    const bottom = isFew && last ? last.y + last.height + 8 : height;
    svg.setAttribute('viewBox', `0 ${TITLE_HEIGHT} ${wide} ${bottom - TITLE_HEIGHT}`);
    svg.removeAttribute('width');
    svg.removeAttribute('height');
    svg.style.maxWidth = `${1.3 * wide}px`;
    const cursor = document.createElementNS('http://www.w3.org/2000/svg', 'rect');
    cursor.classList.add('cursor');
    svg.append(cursor);
    for (const it of svg.querySelectorAll('.at')) it.firstElementChild.textContent = `Step ${it.dataset.step}\n${it.firstElementChild.textContent}`.trim();
  }

  drawTrace(log, step) {
    if (this.trace.rows !== log.rows) this.trace.setRows(log.rows, log.from === 0 ? this.beside : null);
    const isWhole = log.from === 0 && log.to === this.run.end;
    $('trace-part').textContent = isWhole ? '' : `of steps ${shown(log.from)} to ${shown(log.to)}`;
    this.trace.mark(step);
  }

  /** Shows where the cursor is. */
  drawPlace() {
    const { run, step } = this;
    $('step').max = run.end;
    $('step').value = step;
    $('where').textContent = `${shown(step)} of ${shown(run.end)}`;
    $('first').disabled = $('back').disabled = step === 0;
    $('last').disabled = $('forward').disabled = step === run.end;
  }
}
