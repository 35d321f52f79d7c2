// A text with colours, completion and help, marks under parts of it, and marked lines.

/** The most bytes of a machine file or of an event text. */
const LIMIT = 4194304;

/** The longest line that is edited here, in characters: browsers are slow with longer ones. */
const LONGEST_LINE = 20000;

class Editor {
  /** `onChange` is called after each change by a user, `onLine` with a line whose number is clicked, or which has the caret when Alt+Enter is pressed, and
      `onUndo` when a change is to be taken back and nothing was changed since the text was set. If there is `onBreaks`, lines can have breaks, and it is called
      with their number. */
  constructor(place, label, mode, { onChange, onLine, onUndo, onBreaks = null }) {
    this.place = place;
    this.marks = [];
    this.lines = [];
    this.whole = null; // the bytes of a file, until the text is changed
    this.cut = made('p', '', 'cut');
    this.cut.hidden = true;
    place.before(this.cut);
    this.onBreaks = onBreaks;
    this.shown = CodeMirror(place, this.options(label, mode, onLine, onUndo));
    this.shown.on('changes', (_editor, changes) => { if (changes.some(it => it.origin !== 'setValue')) this.changed(onChange); onBreaks?.(this.breaks.length); });
    this.shown.on('gutterClick', (_editor, line, gutter) => { if (gutter === 'CodeMirror-linenumbers') onLine(line + 1); else if (gutter === 'breaks') this.toggleBreak(line + 1); });
    this.shown.on('drop', (_editor, event) => { if (event.dataTransfer.types.includes('Files')) event.preventDefault(); });
    for (const [key, value] of [['role', 'textbox'], ['aria-multiline', 'true']]) this.shown.getInputField().setAttribute(key, value);
    place.addEventListener('mousemove', event => this.hover(event));
    place.addEventListener('mouseleave', hideTip);
    new ResizeObserver(() => this.resized()).observe(place);
  }

  options(label, mode, onLine, onUndo) {
    const help = () => this.help(this.shown.getCursor()), undo = editor => { const { undo: done, redo: undone } = editor.historySize(); if (done || undone) editor.undo(); else onUndo(); };
    return {
      mode, lineNumbers: true, lineSeparator: '\n', inputStyle: 'contenteditable', screenReaderLabel: label, indentUnit: 2, tabSize: 4, matchBrackets: true,
      autoCloseBrackets: { pairs: '[]""\'\'', explode: '[]' }, foldGutter: { rangeFinder: foldsAt }, gutters: [...(this.onBreaks ? ['breaks'] : []), 'CodeMirror-linenumbers', 'CodeMirror-foldgutter'],
      hintOptions: { hint: completion, completeSingle: false }, workTime: 20, workDelay: 200,
      extraKeys: { Tab: false, 'Shift-Tab': false, 'Ctrl-Space': 'autocomplete', F1: help, 'Ctrl-Z': undo, 'Cmd-Z': undo, F9: () => this.toggleBreak(this.shown.getCursor().line + 1), 'Alt-Enter': () => onLine(this.shown.getCursor().line + 1), 'Ctrl-Enter': () => {}, 'Cmd-Enter': () => {}, 'Alt-.': () => {}, 'Alt-,': () => {}, Esc: editor => { hideTip(); if (!editor.state.completionActive) return CodeMirror.Pass; } },
    };
  }

  changed(onChange) {
    this.whole = null;
    hideTip();
    onChange();
  }

  /** The text as bytes. */
  get bytes() { return this.whole ?? encoded(this.shown.getValue()); }

  /** Takes a text from somewhere else, as bytes, which are kept as they are until the text is changed. */
  set bytes(bytes) {
    const text = decoded(bytes), isLong = this.isLong(text);
    this.whole = null;
    this.shown.setOption('readOnly', isLong);
    this.shown.setValue(isLong ? text.slice(0, LONGEST_LINE) : text);
    this.shown.clearHistory(); // what was there before is brought back by Undo
    this.shown.scrollTo(0, 0);
    this.cut.hidden = !isLong;
    this.cut.textContent = `All ${shown(bytes.length)} bytes are run. Only the beginning is shown: a line of this length cannot be edited here.`;
    this.whole = bytes;
    this.marks = [];
    this.lines = [];
  }

  /** Whether a text has a line that is too long to be edited here. */
  isLong(text) {
    for (let at = 0; text.length - at > LONGEST_LINE;) {
      const end = text.lastIndexOf('\n', at + LONGEST_LINE);
      if (end < at) return true;
      at = end + 1;
    }
    return false;
  }

  /** A place of the text: the line and the column are counted from 1, the column in characters. */
  at(line, column) {
    const text = this.shown.getLine(line - 1) ?? '';
    return CodeMirror.Pos(line - 1, [...text].slice(0, column - 1).join('').length);
  }

  /** Marks parts of the text: each with its line, the first column, how many columns, a text, and a kind. */
  setMarks(marks) {
    const { shown: editor } = this;
    this.marks.forEach(it => it.clear());
    this.marks = editor.operation(() => marks.filter(it => it.line <= editor.lineCount()).map(it => {
      const from = this.at(it.line, it.column || 1), to = it.column ? this.at(it.line, it.column + Math.max(1, it.length)) : CodeMirror.Pos(it.line - 1);
      return editor.markText(from, to.ch > from.ch || !it.column ? to : CodeMirror.Pos(from.line, from.ch + 1), { className: `mark ${it.kind}`, attributes: { title: it.text } });
    }));
    const field = editor.getInputField(), faults = marks.filter(it => it.kind === 'fault' || it.kind === 'alert');
    field.setAttribute('aria-invalid', String(marks.some(it => it.kind === 'fault')));
    field.setAttribute('aria-describedby', faults.map(it => it.id).join(' '));
  }

  /** The lines that have a break. */
  get breaks() {
    const found = [];
    this.shown.eachLine(it => { if (it.gutterMarkers?.breaks) found.push(it.lineNo() + 1); });
    return found;
  }

  /** Gives a line a break, or takes it away. */
  toggleBreak(line) {
    if (!this.onBreaks) return;
    const isThere = this.breaks.includes(line);
    this.shown.setGutterMarker(line - 1, 'breaks', isThere ? null : made('span', '●', 'break'));
    this.onBreaks(this.breaks.length);
  }

  /** Marks whole lines. */
  setLines(lines) {
    const { shown: editor } = this;
    editor.operation(() => {
      for (const it of this.lines) { editor.removeLineClass(it, 'background', 'here'); editor.removeLineClass(it, 'gutter', 'here'); }
      this.lines = [...new Set(lines)].filter(it => it <= editor.lineCount()).map(it => editor.getLineHandle(it - 1));
      for (const it of this.lines) { editor.addLineClass(it, 'background', 'here'); editor.addLineClass(it, 'gutter', 'here'); }
    });
  }

  /** Draws the text anew, and shows a line that was to be shown when there was no place for it. */
  resized() {
    this.shown.refresh();
    if (this.wanted && this.place.clientHeight) this.show(...this.wanted);
  }

  /** Shows a line without moving the focus: if it is not in sight, a third from above, or as far as is said. */
  show(number, from = null) {
    this.wanted = this.place.clientHeight ? null : [number, from];
    if (this.wanted) return;
    const { shown: editor } = this, { top, clientHeight } = editor.getScrollInfo(), y = editor.heightAtLine(number - 1, 'local'), height = editor.defaultTextHeight();
    if (from !== null || y < top || y + height > top + clientHeight) editor.scrollTo(null, Math.max(0, y - (from ?? clientHeight / 3)));
  }

  /** Puts the caret at a place. */
  goTo(line, column = 1) {
    this.shown.focus();
    this.shown.setCursor(this.at(line, column));
    this.show(line);
  }

  get hasFocus() { return this.shown.hasFocus(); }

  /** The word of machine files at a place, or undefined. */
  wordAt(place) {
    const token = this.shown.getTokenAt({ line: place.line, ch: place.ch }, false), next = this.shown.getTokenAt({ line: place.line, ch: place.ch + 1 }, false);
    return [token, next].filter(it => isWord(it.string)).map(it => WORDS[it.string])[0];
  }

  /** Shows help on the word at the caret. */
  help(place) {
    const word = this.wordAt(place), { left, bottom } = this.shown.cursorCoords(place, 'window');
    if (word) showTip(helpOf(word), left, bottom);
  }

  hover(event) {
    const place = this.shown.coordsChar({ left: event.clientX, top: event.clientY }, 'window'), word = place.outside ? undefined : this.wordAt(place);
    if (word) showTip(helpOf(word), event.clientX, event.clientY + 14); else hideTip();
  }
}

/** Shows some help at a place of the window, as far as it fits. */
function showTip(content, left, top) {
  const tip = $('tip');
  tip.replaceChildren(...content);
  tip.hidden = false;
  tip.style.left = `${Math.max(4, Math.min(left, innerWidth - tip.offsetWidth - 8))}px`;
  tip.style.top = `${top + tip.offsetHeight > innerHeight ? Math.max(4, top - tip.offsetHeight - 34) : top}px`;
}

function hideTip() { $('tip').hidden = true; }
