// The address of the page is what is shown: an example's name or both texts, and of which example they were; the events of an opened way, the part of a
// lesson, and the step.

const LINK = '#run=', EXAMPLE = '#example=';

/** The most characters of an address, and the most bytes of texts for which one is tried. */
const MOST_ADDRESS = 8000, MOST_LINKED = 1 << 19;

/** What a stream gives, or an error if that is more than so many bytes. */
async function gathered(stream, most) {
  const parts = [];
  let length = 0;
  for (const reader = stream.getReader(); ;) {
    const { done, value } = await reader.read();
    if (done) break;
    length += value.length;
    if (length > most) throw new Error('the texts are too long');
    parts.push(value);
  }
  return new Uint8Array(await new Blob(parts).arrayBuffer());
}

/** Bytes, packed by DEFLATE, in base64url. */
async function asLetters(parts) {
  const packed = await gathered(new Blob(parts).stream().pipeThrough(new CompressionStream('deflate-raw')), Infinity);
  let text = '';
  for (let at = 0; at < packed.length; at += 8192) text += String.fromCharCode(...packed.subarray(at, at + 8192));
  return btoa(text).replaceAll('+', '-').replaceAll('/', '_').replaceAll('=', '');
}

/** The bytes that such letters are, or an error if they cannot be read. */
function fromLetters(letters, most) {
  const packed = Uint8Array.from(atob(letters.replaceAll('-', '+').replaceAll('_', '/')), character => character.charCodeAt(0));
  return gathered(new Blob([packed]).stream().pipeThrough(new DecompressionStream('deflate-raw')), most);
}

/** The part of an address that carries these texts: the length of the first in 4 bytes, and both, packed. */
async function linkOf(machine, events) {
  const head = new DataView(new ArrayBuffer(4));
  head.setUint32(0, machine.length);
  return LINK + await asLetters([head, machine, events]);
}

/** The texts that a link carries; an error if they cannot be read. */
async function textsOf(letters) {
  const whole = await fromLetters(letters, 2 * LIMIT + 4);
  if (whole.length < 4) throw new Error('the link is cut off');
  const length = new DataView(whole.buffer).getUint32(0);
  if (whole.length < 4 + length) throw new Error('the link is cut off');
  return [whole.slice(4, 4 + length), whole.slice(4 + length)];
}

/** The address of what is shown, or null if the texts are too long for one. */
async function addressOf({ example, changedFrom, texts, way, part, step }) {
  if ([...texts, ...(way ? [way] : [])].reduce((sum, text) => sum + text.length, 0) > MOST_LINKED) return null;
  const first = example ? EXAMPLE + encodeURIComponent(example) : await linkOf(...texts);
  const of = !example && changedFrom ? `&of=${encodeURIComponent(changedFrom)}` : '';
  const address = `${first}${of}${way ? `&way=${await asLetters([way])}` : ''}${part ? `&part=${part + 1}` : ''}${step ? `&step=${step}` : ''}`;
  return address.length > MOST_ADDRESS ? null : address;
}

/** What an address says to show, or null if it says nothing; an error if it cannot be read. */
async function readAddress(address) {
  const [first, ...rest] = address.split('&'), more = new URLSearchParams(rest.join('&')), isLink = first.startsWith(LINK);
  if (!isLink && !first.startsWith(EXAMPLE)) return null;
  const number = name => { const it = Number(more.get(name) ?? 0); return Number.isSafeInteger(it) && it > 0 ? it : 0; };
  const way = more.has('way') ? await fromLetters(more.get('way'), LIMIT) : null;
  const found = isLink ? { texts: await textsOf(first.slice(LINK.length)) } : { example: decodeURIComponent(first.slice(EXAMPLE.length)) };
  return { ...found, of: more.get('of'), way, part: Math.max(0, number('part') - 1), step: number('step') };
}
