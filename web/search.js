// The search: every way to insert some further interrupts into the events, and what comes of it. It has a worker of its own, so it goes on while one types.

/** At most how many ways are tried, and how many outcomes are listed. */
const MOST_WAYS = 1000000n, MOST_LISTED = 500;

class Search {
  /** `library` makes the searches, and `opener` gives a way, also while one is made; `textsNow` gives the texts, `frameNow` those that an opened way is of,
      `onWay` opens the events of a way. */
  constructor({ library, opener, textsNow, frameNow, onWay }) {
    Object.assign(this, { library, opener, textsNow, frameNow, onWay, report: null });
    $('search').addEventListener('submit', event => {
      event.preventDefault();
      this.search(textsNow());
    });
    $('explore-stop').addEventListener('click', () => this.library.stop());
    $('filter').addEventListener('change', () => this.list());
  }

  /** The numbers of a search, as the form has them: extra interrupts, their kinds, what is seen, and the limit. */
  numbers() {
    const kinds = [...document.querySelectorAll('[name=kind]:checked')].reduce((sum, one) => sum | Number(one.value), 0);
    return [Number($('extra').value), kinds, Number($('see').value), MOST_WAYS];
  }

  /** Searches with one extra interrupt, with two, and so on, and lists what is found so far after each. */
  async search(texts) {
    this.library.stop();
    const asked = this.numbers(), mine = Object.assign(this, { texts, asked, report: null }).asked;
    this.busy(true);
    $('outcomes').replaceChildren();
    $('filters').hidden = true;
    $('search').classList.remove('old');
    try {
      for (let extra = Math.min(1, asked[0]); extra <= asked[0]; extra++) {
        const ways = await this.count([extra, ...asked.slice(1)]), answer = await this.timed([extra, ...asked.slice(1)], ways);
        if (mine !== this.asked) return;
        this.take(answer, extra);
        if (!isThere(answer)) break;
      }
    } catch (why) {
      if (mine !== this.asked) return;
      const had = this.report ? `; what is listed is of at most ${this.depth} more` : '';
      $('searched').textContent = why instanceof Stopped ? `The search was stopped${had}.` : `The search broke off: ${why.message}`;
    }
    this.busy(false);
  }

  busy(is) {
    $('explore-stop').hidden = $('search-progress').hidden = !is;
    clearInterval(this.clock);
  }

  /** How many ways there are, which a search with the limit 1 says; 0 if it does not. */
  async count(numbers) {
    const answer = await this.library.ask('execsim_explore', this.texts, [...numbers.slice(0, 3), 1n]);
    return answer.status === TOO_MANY ? Number(answer.text().match(/(\d+) ways/)?.[1] ?? 0) : 0;
  }

  /** Makes a search, and shows meanwhile how far it should have come by the time that the ways before took. */
  async timed(numbers, ways) {
    const begun = performance.now(), expected = ways * (this.perWay ?? 0.2);
    const tick = () => {
      const took = performance.now() - begun, left = Math.max(1, Math.round((expected - took) / 1000));
      $('search-progress').value = Math.min(0.98, took / Math.max(1, expected));
      $('searched').textContent = `At most ${numbers[0]} more: ${ways ? counted(ways, 'way') : 'the ways'} since ${(took / 1000).toFixed(1)} s; ${took < expected ? `about ${left} s left, as estimated` : 'longer than estimated'}.`;
    };
    clearInterval(this.clock);
    this.clock = setInterval(tick, 200);
    tick();
    const answer = await this.library.ask('execsim_explore', this.texts, numbers);
    if (ways > 20) this.perWay = answer.took / ways;
    return answer;
  }

  /** Takes a report. */
  take(answer, extra) {
    const done = isThere(answer), report = done ? readReport(answer.text()) : null;
    if (!done) {
      $('searched').textContent = `${this.report ? `At most ${extra} more: ` : ''}${answer.text().trim()}`;
      return;
    }
    [this.report, this.depth] = [report, extra];
    const alerts = report.head.find(line => /^ways that end in an alert/.test(line)) ?? '';
    $('searched').textContent = `At most ${extra} more of ${report.kinds.join(', ')}: ${counted(report.ways, 'way')}, ${counted(report.outcomes.length, 'outcome')}; ${alerts}.`;
    this.base = this.baseOf(report);
    this.list();
  }

  /** The outcome of the events as they are: the one whose first way is they. */
  baseOf(report) {
    const plain = eventsOf(decoded(this.texts[1])).map(it => it.kind === 'irq' ? `irq ${it.what}` : `${it.kind} ${it.to - it.from + 1}`).join(', ');
    return report.outcomes.find(it => it.way === plain) ?? report.outcomes[0];
  }

  /** Lists the outcomes that the filter lets through. */
  list() {
    const { report, base } = this, lets = { all: () => true, other: it => it !== base, alert: hasAlert, waits: hasWaiting, rule: it => exercise.isBroken(it) }[$('filter').value];
    const seen = report.outcomes.map((one, i) => ({ one, number: i + 1 })).filter(({ one }) => lets(one));
    $('filters').hidden = report.outcomes.length < 2;
    $('filter').querySelector('[value=rule]').hidden = !exercise.rule;
    $('outcomes').replaceChildren(...seen.slice(0, MOST_LISTED).map(({ one, number }) => this.item(one, number)));
    if (seen.length > MOST_LISTED) $('outcomes').append(made('li', `.. and ${counted(seen.length - MOST_LISTED, 'outcome')} more`, 'more'));
    if (!seen.length) $('outcomes').append(made('li', 'No outcome is such.'));
  }

  item(one, number) {
    const item = made('li', '', hasAlert(one) || exercise.isBroken(one) ? 'alert' : ''), open = button('Open', () => this.openWay(number)), more = made('details'), other = one === this.base ? null : firstOtherLine(one, this.base);
    item.value = number;
    open.setAttribute('aria-label', `Open the first way of outcome ${number}`);
    item.append(open, ` ${counted(one.count, 'way')}${one === this.base ? ', as now' : ''}`);
    if (other) item.append(': ', made('code', inShort(other.line)), ', not ', made('code', inShort(other.was)));
    more.append(made('summary', `${counted(one.lines.length, 'line')}, first ${one.way}`), made('pre', one.lines.join('\n')));
    item.append(more);
    return item;
  }

  /** Opens the first way of an outcome as a run. */
  async openWay(number) {
    const { texts, report, depth, asked } = this;
    try {
      const answer = await this.opener.ask('execsim_way', texts, [depth, ...asked.slice(1), BigInt(number)]);
      if (isThere(answer)) this.onWay({ texts, events: answer.bytes, said: `The first way of outcome ${number}: ${report.outcomes[number - 1].way}.` });
      else $('searched').textContent = answer.text();
    } catch (why) {
      if (!(why instanceof Stopped)) $('searched').textContent = `The way is not opened: ${why.message}`;
    }
  }

  /** Shows whether what is listed, or searched, is of texts as they were. */
  age() { $('search').classList.toggle('old', Boolean(this.texts) && ![this.textsNow(), this.frameNow()].some(now => areSame(now, this.texts))); }
}
