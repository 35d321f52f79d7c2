// Lessons: each a text that is read a part at a time, beside the run that it is about; the last part is an exercise.

/** The lessons, in their order: each with its name, its title, its parts and its texts. */
let LESSONS = [];

/** Where this browser keeps the names of the lessons whose exercises were solved. */
const SOLVED = 'execsim.solved';

/** A text as paragraphs; those that begin with a dash are a list. */
function asParagraphs(texts) {
  const parts = [];
  for (const text of texts) {
    const isItem = text.startsWith('- '), it = made(isItem ? 'li' : 'p');
    it.append(...withCode(isItem ? text.slice(2) : text));
    if (!isItem) parts.push(it);
    else if (parts.at(-1)?.tagName === 'UL') parts.at(-1).append(it);
    else { parts.push(made('ul')); parts.at(-1).append(it); }
  }
  return parts;
}

class Lesson {
  /** `onOpen` opens a lesson by its name, `onStep` shows the step of a part, `onPart` is called when another part is shown. */
  constructor({ onOpen, onStep, onPart }) {
    Object.assign(this, { onOpen, onStep, onPart, shown: null, part: 0 });
    $('part-back').addEventListener('click', () => this.goTo(this.part - 1));
    $('part-next').addEventListener('click', () => this.isLast() ? this.openNext() : this.goTo(this.part + 1));
    $('lesson-close').addEventListener('click', () => this.onOpen(null));
    $('lesson-anew').addEventListener('click', () => this.onOpen(this.shown.name, this.part));
    $('lessons-menu').addEventListener('toggle', () => this.list());
  }

  /** Takes the lesson of that name, or none; which part is shown stays, if it is the same lesson. */
  begin(name, part = name === this.shown?.name ? this.part : 0) {
    const was = this.shown;
    this.shown = LESSONS.find(it => it.name === name) ?? null;
    const isSeen = this.shown !== null && !document.body.classList.contains('embed'); // a page around this one has its own words
    document.body.classList.toggle('lesson', isSeen);
    $('lesson').hidden = $('lesson-tab').hidden = !isSeen;
    if (!this.shown) {
      if (was && document.body.dataset.pane === 'lesson') $('tabs').querySelector('[data-pane=run]').click();
      return;
    }
    if (!was && isSeen) $('lesson-tab').click();
    this.part = Math.min(part, this.shown.parts.length - 1);
    this.draw();
  }

  isLast() { return this.part === this.shown.parts.length - 1; }

  get next() { return LESSONS[LESSONS.indexOf(this.shown) + 1]; }

  openNext() { if (this.next) this.onOpen(this.next.name); }

  /** Goes to a part, and to the step that it names. */
  goTo(part) {
    this.part = part;
    this.draw();
    const { step } = this.shown.parts[part];
    if (step !== null) this.onStep(step);
    this.onPart();
  }

  draw() {
    const { parts, title } = this.shown, { title: head, text } = parts[this.part], isExercise = this.isLast();
    $('lesson-title').textContent = `${LESSONS.indexOf(this.shown) + 1} ${title}`;
    $('part-title').textContent = head;
    $('part-title').hidden = !head;
    $('part-text').replaceChildren(...(isExercise ? [] : asParagraphs(text)));
    $('lesson-exercise').hidden = !isExercise;
    $('part-where').textContent = `${this.part + 1} of ${parts.length}`;
    $('part-back').disabled = this.part === 0;
    $('part-next').textContent = isExercise ? 'Next lesson' : 'Next';
    $('part-next').disabled = isExercise && !this.next;
    $('part-next').classList.toggle('first', !isExercise || this.solved().has(this.shown.name));
    $('part-next').title = isExercise && this.next ? this.next.title : '';
    $('lesson-body').scrollTop = 0;
  }

  /** The names of the lessons that were solved in this browser. */
  solved() {
    try { return new Set(JSON.parse(localStorage.getItem(SOLVED)) ?? []); } catch { return new Set(); }
  }

  /** Notes that the exercise that is shown was solved. */
  solve() {
    if (!this.shown) return;
    try { localStorage.setItem(SOLVED, JSON.stringify([...this.solved().add(this.shown.name)])); } catch {} // there is no room, or none is allowed
    this.list();
    $('part-next').classList.add('first');
  }

  /** Lists the lessons, with a mark at each that was solved. */
  list() {
    const solved = this.solved();
    $('lessons').replaceChildren(...LESSONS.map((it, i) => {
      const isSolved = solved.has(it.name), open = button('', () => { $('lessons-menu').open = false; this.onOpen(it.name); $('lesson-body').focus(); });
      open.append(made('span', String(i + 1), 'number'), it.title, ...(isSolved ? [made('span', ' ✓', 'done')] : []));
      if (isSolved) open.setAttribute('aria-label', `${i + 1} ${it.title}, solved`);
      if (it === this.shown) open.setAttribute('aria-current', 'true');
      return open;
    }));
  }
}
