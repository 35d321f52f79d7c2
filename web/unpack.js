// What the page carries: bytes packed by LZMA, written 7 bits a character.

/** The characters that a page cannot carry as they are; each is written as one from 161 on. */
const SPARED = [0, 13, 60];

/** The bytes of a text that has 7 bits a character. */
function bytesOf(text) {
  const bytes = new Uint8Array(Math.floor(text.length * 7 / 8));
  let value = 0, bits = 0, n = 0;
  for (let i = 0; i < text.length; i++) {
    const character = text.charCodeAt(i);
    value = (value << 7 | (character < 128 ? character : SPARED[character - 161])) & 0x7fff;
    bits += 7;
    if (bits >= 8) bytes[n++] = value >> (bits -= 8);
  }
  return bytes;
}

/** Reads single bits, each by how probable it is: the range decoder of LZMA. */
class BitReader {
  constructor(bytes, at) {
    this.bytes = bytes;
    this.at = at + 5; // the first byte is 0
    this.range = 0xffffffff;
    this.code = new DataView(bytes.buffer, bytes.byteOffset + at + 1).getUint32(0);
  }

  more() {
    if (this.range >= 0x1000000) return;
    this.range = this.range << 8 >>> 0;
    this.code = (this.code << 8 | this.bytes[this.at++]) >>> 0;
  }

  /** A bit, by a probability of a table, which learns from it. */
  bit(table, i) {
    const bound = (this.range >>> 11) * table[i], bit = this.code < bound ? 0 : 1;
    if (bit) {
      this.range -= bound;
      this.code -= bound;
      table[i] -= table[i] >>> 5;
    } else {
      this.range = bound;
      table[i] += 2048 - table[i] >>> 5;
    }
    this.more();
    return bit;
  }

  /** Bits that are as probable as not. */
  evenBits(count) {
    let value = 0;
    for (; count; count--) {
      this.range >>>= 1;
      const bit = this.code < this.range ? 0 : 1;
      if (bit) this.code -= this.range;
      value = value << 1 | bit;
      this.more();
    }
    return value;
  }

  /** That many bits from a tree of probabilities, the highest one first. */
  tree(table, from, count) {
    let node = 1;
    for (let i = 0; i < count; i++) node = node << 1 | this.bit(table, from + node);
    return node - (1 << count);
  }

  /** The same, the lowest bit first. */
  treeFromLowest(table, from, count) {
    let node = 1, value = 0;
    for (let i = 0; i < count; i++) {
      const bit = this.bit(table, from + node);
      node = node << 1 | bit;
      value |= bit << i;
    }
    return value;
  }
}

const even = count => new Uint16Array(count).fill(1024);

/** The probabilities of the lengths of copies. */
class Lengths {
  constructor() {
    this.kinds = even(2);
    [this.short, this.middle, this.long] = [even(16 * 8), even(16 * 8), even(256)];
  }

  read(reader, place) {
    if (!reader.bit(this.kinds, 0)) return 2 + reader.tree(this.short, 8 * place, 3);
    if (!reader.bit(this.kinds, 1)) return 10 + reader.tree(this.middle, 8 * place, 3);
    return 18 + reader.tree(this.long, 0, 8);
  }
}

/** Unpacks LZMA with its header of 13 bytes to a known length. */
class Unpacker {
  constructor(packed, length) {
    const given = packed[0];
    [this.before, this.low, this.places] = [given % 9, (1 << Math.floor(given / 9) % 5) - 1, (1 << Math.floor(given / 45)) - 1];
    this.reader = new BitReader(packed, 13);
    [this.out, this.n, this.state, this.back] = [new Uint8Array(length), 0, 0, [0, 0, 0, 0]];
    [this.isCopy, this.isLong] = [even(12 * 16), even(12 * 16)];
    [this.isBack, this.isBack1, this.isBack2, this.isBack3] = [even(12), even(12), even(12), even(12)];
    [this.slots, this.near, this.lowest] = [even(4 * 64), even(128), even(16)];
    [this.lengths, this.backLengths] = [new Lengths(), new Lengths()];
    this.literals = even(0x300 << this.before + Math.log2(this.low + 1));
  }

  all() {
    while (this.n < this.out.length) {
      const place = this.n & this.places;
      if (this.reader.bit(this.isCopy, 16 * this.state + place)) this.copy(place); else this.literal();
    }
    return this.out;
  }

  literal() {
    const { reader, out, n } = this, previous = n ? out[n - 1] : 0;
    const from = 0x300 * (((n & this.low) << this.before) + (previous >> 8 - this.before));
    let symbol = 1;
    for (let likely = this.state < 7 ? 0 : out[n - this.back[0] - 1] | 0x100; likely && symbol < 0x100;) {
      const expected = likely >> 7 & 1, bit = reader.bit(this.literals, from + (1 + expected << 8) + symbol);
      symbol = symbol << 1 | bit;
      likely = bit === expected ? likely << 1 : 0;
    }
    while (symbol < 0x100) symbol = symbol << 1 | reader.bit(this.literals, from + symbol);
    out[this.n++] = symbol;
    this.state = this.state < 4 ? 0 : this.state - (this.state < 10 ? 3 : 6);
  }

  /** Copies from before: from a new distance, or from one of the last four. */
  copy(place) {
    const { reader, state } = this, isEarly = state < 7;
    let length = 1;
    if (!reader.bit(this.isBack, state)) {
      length = this.lengths.read(reader, place);
      this.back = [this.distance(length), ...this.back.slice(0, 3)];
      this.state = isEarly ? 7 : 10;
    } else if (this.isLast(state) && !reader.bit(this.isLong, 16 * state + place)) {
      this.state = isEarly ? 9 : 11;
    } else {
      length = this.backLengths.read(reader, place);
      this.state = isEarly ? 8 : 11;
    }
    for (; length && this.n < this.out.length; length--, this.n++) this.out[this.n] = this.out[this.n - this.back[0] - 1];
  }

  /** Whether the last distance is taken again; if not, one of those before it becomes the last. */
  isLast(state) {
    if (!this.reader.bit(this.isBack1, state)) return true;
    const taken = !this.reader.bit(this.isBack2, state) ? 1 : this.reader.bit(this.isBack3, state) ? 3 : 2;
    this.back.unshift(...this.back.splice(taken, 1));
    return false;
  }

  /** A new distance. */
  distance(length) {
    const { reader } = this, slot = reader.tree(this.slots, 64 * Math.min(length - 2, 3), 6), count = (slot >> 1) - 1;
    if (slot < 4) return slot;
    const from = (2 | slot & 1) << count;
    if (slot < 14) return from + reader.treeFromLowest(this.near, from - slot, count);
    return from + (reader.evenBits(count - 4) << 4) + reader.treeFromLowest(this.lowest, 0, 4);
  }
}

/** The bytes that a part of the page carries, which says how many they are. */
function unpacked(part) { return new Unpacker(bytesOf(part.textContent), Number(part.dataset.length)).all(); }
