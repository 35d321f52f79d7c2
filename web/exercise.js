// Exercises: what is to be mended in an example, and a rule over the outcomes of a search, by which every way is judged. The rule is applied here, so that
// it is applied rightly is tested; and the search is that of execsim_explore.

/** The exercises by the example or the lesson that they are of: a task, the search, what may be changed if not all, and patterns of which each outcome is to
    have all, or none. */
let EXERCISES = {};

/** Whether an outcome breaks the rule of an exercise. */
function breaksRule({ never, always }, outcome) {
  const text = outcome.lines.join('\n'), isThere = pattern => new RegExp(pattern, 'm').test(text);
  return hasAlert(outcome) || never.some(isThere) || !always.every(isThere);
}

class Exercise {
  /** `library` makes the search, and `opener` gives a way; `begun` gives the texts of an exercise as they were, and `now` those whose ways are judged;
      `onWay` opens one, `onJudged` is called with what was found. */
  constructor({ library, opener, begun, now, onWay, onJudged }) {
    Object.assign(this, { library, opener, begun, now, onWay, onJudged, rule: null });
    $('exercise-check').addEventListener('click', () => this.check());
  }

  /** Takes the exercise of an example or of a lesson, which is shown in its last part, or none. */
  begin(name, isLesson) {
    const rule = Object.hasOwn(EXERCISES, name ?? '') ? EXERCISES[name] : null, hasTab = rule !== null && !isLesson;
    if (rule === this.rule) return this.age();
    [this.rule, this.name] = [rule, name];
    $('exercise-tab').hidden = !hasTab;
    $(isLesson ? 'lesson-exercise' : 'exercise').append($('exercise-body'));
    this.judged = null;
    $('exercise-verdict').replaceChildren();
    if (rule) $('exercise-task').replaceChildren(...withCode(rule.task));
    (hasTab ? $('exercise-tab') : $('exercise-tab').ariaSelected === 'true' ? $('findings-tab') : null)?.click();
  }

  /** Shows whether the texts are other than those that were judged. An opened way changes nothing of that. */
  age() {
    const isOld = $('exercise-verdict').textContent !== '' && this.judged && !areSame(this.now(), this.judged);
    $('exercise-verdict').className = isOld ? 'old' : '';
  }

  isBroken(outcome) { return this.rule !== null && breaksRule(this.rule, outcome); }

  /** Searches every way, judges each outcome, and says what was found; answers why that could not be done, or an empty text. */
  async check() {
    const { rule } = this, { extra, kinds } = rule, texts = this.now(), say = (...words) => { $('exercise-verdict').replaceChildren(...words); return $('exercise-verdict').textContent; };
    this.judged = texts;
    const other = rule.changes ? otherThanAllowed(rule.changes, this.begun(this.name), texts.map(decoded)) : '';
    $('exercise-verdict').className = '';
    if (other) return say(made('b', 'Something else was changed: '), ...withCode(`${other} not as at first. Only the code of ${rule.changes.map(it => `\`${it}\``).join(' and ')} may be changed.`));
    const more = extra === 1 ? 'at most 1 more interrupt comes' : `at most ${extra} more interrupts come`;
    say(`Every way in which ${more} is run ..`);
    try {
      const answer = await this.library.ask('execsim_explore', texts, [extra, kinds, 1, MOST_WAYS]);
      if (!isThere(answer)) return say(answer.text().trim());
      const { ways, outcomes } = readReport(answer.text());
      if (outcomes.reduce((all, one) => all + one.count, 0) !== ways) return say('The counts of the outcomes are not that of the ways: please report this.');
      const wrong = outcomes.map((one, i) => ({ ...one, number: i + 1 })).filter(one => breaksRule(rule, one)), sum = wrong.reduce((all, one) => all + one.count, 0);
      this.onJudged({ holds: !sum, ways, wrong: sum });
      if (!sum) say(made('b', `It holds in all ${counted(ways, 'way')}`), ` in which ${more}, and no way was left out.`);
      if (!sum) return '';
      const open = button('Show me one', () => this.open(texts, rule, wrong[0].number));
      say(made('b', 'Not yet: '), `in ${shown(sum)} of ${counted(ways, 'way')} `, ...withCode(rule.says), '. ', open);
      return '';
    } catch (why) {
      return say(why instanceof Stopped ? 'It was stopped.' : `It broke off: ${why.message}`);
    }
  }
  /** Opens the first way of an outcome that breaks a rule. */
  async open(texts, { extra, kinds, says }, number) {
    const said = made('span');
    said.append(...withCode(says));
    try {
      const way = await this.opener.ask('execsim_way', texts, [extra, kinds, 1, MOST_WAYS, BigInt(number)]);
      if (isThere(way)) this.onWay({ texts, events: way.bytes, said: `A way in which ${said.textContent}.` });
    } catch (why) {
      if (!(why instanceof Stopped)) $('exercise-verdict').append(` The way is not opened: ${why.message}`);
    }
  }
}
