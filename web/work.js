// Own work: nothing overwrites a text for good. Undo brings back what another text has replaced; the last pairs are kept in this browser.

/** How many pairs are kept, and how many characters of one and of all at most: browsers take five million. */
const MOST_PAIRS = 20, MOST_IN_PAIR = 1000000, MOST_CHARACTERS = 4000000;

const KEPT = 'execsim.pairs';

class Work {
  /** `now` gives the pair that is shown: two texts with their example's name, their step, and the way that was opened. `onTake` shows one again, and is
      called with whether the one that it replaces is to be had back by Undo. */
  constructor(now, onTake) {
    Object.assign(this, { now, onTake });
    this.past = [];
    this.id = this.newId();
    this.unsaved = new Set(); // the files that were changed since they were saved
    $('undo').addEventListener('click', () => this.undo());
    $('kept-menu').addEventListener('toggle', () => this.list());
    addEventListener('beforeunload', event => { if (this.isUnsaved() && navigator.userActivation?.hasBeenActive !== false) event.preventDefault(); });
  }

  /** Whether there is own work that would be lost: what is shown, or what Undo alone has, since this browser did not keep it. */
  isUnsaved() { return this.unsaved.size > 0 || this.past.some(it => it.unsaved.size && !it.isKept); }

  newId() { return `${Date.now()}-${Math.random().toString(36).slice(2)}`; }

  /** Keeps a pair that another one replaces. */
  replaces(pair) {
    if (!pair.texts.some(text => text.length)) return;
    this.past.push({ ...pair, id: this.id, unsaved: new Set(this.unsaved), isKept: Boolean(pair.example) || this.keep(pair) });
    if (this.past.length > 50) this.past.shift();
    this.id = this.newId();
    this.unsaved = new Set();
    this.showUndo();
  }

  /** Shows whether there is something to bring back, and what. */
  showUndo() {
    const pair = this.past.at(-1);
    $('undo').disabled = !pair;
    $('undo').title = pair ? `Brings back ${pair.example ?? pair.title}${pair.way ? ', a way' : ''}` : 'Brings back the texts that were here before';
  }

  /** Brings back the last pair that was replaced. What is shown now is kept among the earlier ones. */
  undo() {
    const pair = this.past.pop();
    if (!pair) return;
    this.showUndo();
    const last = this.now();
    if (!last.example) this.keep(last);
    this.onTake(pair, false);
    [this.id, this.unsaved] = [pair.id, pair.unsaved];
  }

  /** The pairs that this browser keeps, the newest first. */
  pairs() {
    try { return JSON.parse(localStorage.getItem(KEPT)) ?? []; } catch { return []; }
  }

  /** Keeps own texts in this browser; of the same work only the last. Answers whether it did. */
  keep({ texts, title, changedFrom }) {
    const [machine, events] = texts.map(decoded);
    if (machine.length + events.length > MOST_IN_PAIR) return false;
    const others = this.pairs().filter(it => it.id !== this.id && (it.machine !== machine || it.events !== events));
    const pairs = [{ id: this.id, time: Date.now(), title, of: changedFrom, machine, events }, ...others].slice(0, MOST_PAIRS);
    while (pairs.length && pairs.reduce((sum, it) => sum + it.machine.length + it.events.length, 0) > MOST_CHARACTERS) pairs.pop();
    for (; pairs.length; pairs.pop()) {
      try {
        localStorage.setItem(KEPT, JSON.stringify(pairs));
        return true;
      } catch {} // there is no room for all of them, or none is allowed
    }
    return false;
  }

  /** Lists the pairs that are kept. */
  list() {
    const pairs = this.pairs(), items = pairs.map(it => {
      const open = button('', () => { $('kept-menu').open = false; this.onTake(takenFrom(it), true); });
      open.append(made('b', new Date(it.time).toLocaleString()), it.of ? `, of ${exampleOf(it.of)?.title ?? it.of}` : '', made('span', it.title));
      return open;
    });
    $('kept').replaceChildren(...(items.length ? items : [made('p', 'Texts of yours that another text replaces, or that you leave, are kept here, in this browser: the last 20 pairs, each of at most 1,000,000 characters.')]));
  }
}

/** A pair that was kept, as it is shown. */
const takenFrom = ({ machine, events, of }) => ({ texts: [encoded(machine), encoded(events)], changedFrom: of, step: 0 });

/** What a pair of texts is called: the first comment, or the first name. */
function titleOf(machine) {
  const text = decoded(machine.subarray(0, 2000)), comment = text.match(/^# ?(?!:)(\S.*)$/m)?.[1], name = text.match(/^name\s*=\s*["']([^"']*)/m)?.[1];
  return (comment ?? (name ? `task ${name}` : text.split('\n')[0])).slice(0, 60);
}
