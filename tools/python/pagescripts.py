"""What the tests of the page run in it."""

# 30,000 calls of the heap over up to some thousand blocks, each filled with a byte of its own; and 20,000 products and shifts.
HEAP = """(packed => {
  const x = new WebAssembly.Instance(new WebAssembly.Module(Uint8Array.from(atob(packed), it => it.charCodeAt(0))), {}).exports, base = x.__heap_base.value;
  x.heap_from(base + 64n);
  let seed = 1;
  const below = n => { seed = (seed * 1103515245 + 12345) % 2147483648; return Math.floor(seed / 2147483648 * n); };
  const number = at => new DataView(x.memory.buffer).getBigUint64(Number(at), true), bytes = (block, n) => new Uint8Array(x.memory.buffer, block.at, n), live = [];
  const wrong = new Set(), same = (block, n) => bytes(block, n).every(it => it === block.value) || wrong.add('a block is not as it was');
  const got = block => { if (number(base) !== 1n) wrong.add('memory was refused'); block.at = Number(number(base + 8n)); if (block.at % 16) wrong.add('alignment'); };
  for (let k = 0; k < 30000; k++) {
    const kind = below(10), i = below(live.length), block = live[i];
    if (kind < 4 || !block) {
      const made = { n: below(20) ? below(300) : below(20000), value: k & 255 };
      x.rattle_alloc(base, BigInt(made.n), 8n);
      got(made);
      bytes(made, made.n).fill(made.value);
      live.push(made);
    } else if (kind < 7) {
      const n = below(3) ? Math.min(2 * block.n + 1, 50000) : below(block.n + 1), kept = Math.min(n, block.n);
      x.rattle_realloc(base, BigInt(block.at), BigInt(block.n), BigInt(n), 8n);
      got(block);
      same(block, kept);
      block.n = n;
      bytes(block, n).fill(block.value);
    } else {
      same(block, block.n);
      x.rattle_dealloc(BigInt(block.at));
      live.splice(i, 1);
    }
  }
  live.forEach(block => same(block, block.n));
  const half = () => [0, 1, 2, 3].reduce(sum => sum << 16n | BigInt(below(65536)), 0n), signed = it => BigInt.asIntN(64, it), all = (1n << 128n) - 1n;
  const is = (name, wanted) => { if ((number(base + 8n) << 64n | number(base)) !== (wanted & all)) wrong.add(name); };
  for (let k = 0; k < 20000; k++) {
    const [a, b, c, d] = [half(), half(), half(), half()], first = b << 64n | a, second = d << 64n | c, n = below(128);
    x.__multi3(base, signed(a), signed(b), signed(c), signed(d));
    is('a product', first * second);
    x.__ashlti3(base, signed(a), signed(b), n);
    is('a shift to the left', first << BigInt(n));
    x.__lshrti3(base, signed(a), signed(b), n);
    is('a shift to the right', first >> BigInt(n));
  }
  return JSON.stringify([...wrong]);
})"""

# What is not in sight at a step: its column, its rows, its event, the first of its lines, the state and the sentence.
IN_SIGHT = """(async () => {
  const wrong = [], box = it => it.getBoundingClientRect(), within = (a, b) => a.left >= b.left - 1 && a.right <= b.right + 1 && a.top >= b.top - 1 && a.bottom <= b.bottom + 1;
  const screen = { left: 0, top: 0, right: 1440, bottom: 900 }, part = (it, frame) => { const [a, b] = [box(it), box(frame)]; return within({ ...a.toJSON(), top: Math.max(a.top, b.top), bottom: Math.min(a.bottom, b.bottom) }, b) && within(b, screen) && Math.min(a.bottom, b.bottom) - Math.max(a.top, b.top) > 40; };
  for (let step = 0; step <= view.run.end; step++) {
    await view.move(step, false);
    while (view.moving) await new Promise(done => setTimeout(done));
    const bad = what => wrong.push(`${what} of step ${step}`), column = $('picture').querySelector('.at.here'), rows = view.trace.at(step);
    if (step && !(column && part(column, $('picture')))) bad('column');
    const seen = [...$('trace').querySelectorAll('.row.here')];
    if (rows.length && !(seen.length && seen.some(it => within(box(it), box($('trace')))) && within(box($('trace')), screen))) bad('row');
    const event = document.querySelector('#events-editor .here .CodeMirror-linenumber');
    if (step && !(event && within(box(event), box($('events-editor'))) && within(box(event), screen))) bad('event');
    const first = rows.find(it => it.line)?.line, line = [...document.querySelectorAll('#machine-editor .here .CodeMirror-linenumber')].find(it => it.textContent === String(first));
    if (first && !(line && within(box(line), box($('machine-editor'))) && within(box(line), screen))) bad('line');
    if (!within(box($('state')), screen) || $('state').children.length < 2) bad('state');
    if (!within(box($('telling')), screen) || !$('said').textContent) bad('sentence');
    if (document.documentElement.scrollHeight > innerHeight || document.documentElement.scrollWidth > innerWidth) bad('the page scrolls at');
  }
  return wrong;
})()"""

# The marked lines of the state at each step, and those that are shown as gone.
MARKED = """(async () => {
  const all = [];
  for (let step = 1; step <= view.run.end; step++) {
    const lines = changedParts(await view.run.stateAt(step - 1), await view.run.stateAt(step)).flatMap(it => it.lines);
    all.push(['changed', 'gone'].map(what => lines.filter(line => line.is === what).map(line => line.text)));
  }
  return all;
})()"""

# What the first thing that is watched is at each step, and whether it is marked.
WATCHED = """(async () => {
  const all = [], row = $('watched').firstElementChild;
  for (let step = 0; step <= view.run.end; step++) {
    await view.move(step, false);
    while (view.moving) await new Promise(done => setTimeout(done));
    all.push([row.querySelector('.value').textContent, row.classList.contains('changed')]);
  }
  return all;
})()"""

# Texts whose contrast with what is below them is less than 4.5 to 1.
PALE = """(() => {
  const canvas = new OffscreenCanvas(1, 1).getContext('2d', { willReadFrequently: true }), numbers = colour => { canvas.clearRect(0, 0, 1, 1); canvas.fillStyle = colour; canvas.fillRect(0, 0, 1, 1); const it = canvas.getImageData(0, 0, 1, 1).data; return [it[0], it[1], it[2], it[3] / 255]; };
  const bright = ([r, g, b]) => { const [x, y, z] = [r, g, b].map(it => it / 255).map(it => it <= 0.04045 ? it / 12.92 : ((it + 0.055) / 1.055) ** 2.4); return 0.2126 * x + 0.7152 * y + 0.0722 * z; };
  const over = (top, below) => below.map((it, i) => i === 3 ? 1 : top[i] * top[3] + it * (1 - top[3])), ground = it => { const chain = []; for (let at = it; at; at = at.parentElement) chain.unshift(numbers(getComputedStyle(at).backgroundColor)); return chain.reduce((below, top) => over(top, below), numbers(getComputedStyle(document.body).backgroundColor)); };
  const walker = document.createTreeWalker(document.body, NodeFilter.SHOW_TEXT), pale = new Set();
  while (walker.nextNode()) {
    const it = walker.currentNode.parentElement, box = it.getBoundingClientRect(), style = getComputedStyle(it);
    if (!walker.currentNode.data.trim() || !box.width || !box.height || style.visibility === 'hidden' || it.closest('script, style, title, desc, .unseen, .stale, .CodeMirror-measure, :disabled, option')) continue;
    const isDrawing = it.closest('svg'), on = isDrawing && /\\bon\\b/.test(it.getAttribute('class') ?? '');
    if (on) continue; // on a bar of its task
    const below = ground(isDrawing ? isDrawing.parentElement : it), colour = over(numbers(isDrawing ? style.fill : style.color), below), [a, b] = [bright(colour), bright(below)].sort((x, y) => y - x);
    if ((a + 0.05) / (b + 0.05) < 4.5) pale.add(`${it.tagName}.${it.getAttribute('class')} ${walker.currentNode.data.trim().slice(0, 20)} ${((a + 0.05) / (b + 0.05)).toFixed(2)}`);
  }
  return [...pale];
})()"""

LESSON = """<!doctype html><meta charset="utf-8"><link rel="icon" href="data:,"><title>A lesson</title><body>
<script>window.heard = []; addEventListener('message', event => heard.push(event.data));
const frame = document.createElement('iframe'); frame.src = 'execsim.html?embed=' + location.origin + '#example=lost-wakeup'; document.body.append(frame);
const send = message => frame.contentWindow.postMessage(message, '*');</script>"""
