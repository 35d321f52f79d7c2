// The calls of the library, made in workers, so that a long one blocks nothing and can be stopped.

/** What a call answers, as execsim.h has it. */
const RAN = 0, MACHINE_REFUSED = 1, EVENTS_REFUSED = 2, ALERTED = 3, NO_MEMORY = 4, NOT_THERE = 7, TOO_MANY = 8;

/** How much memory a worker keeps for further calls, in bytes. */
const MOST_KEPT = 1 << 28;

/** A call that was stopped before it answered. */
class Stopped extends Error {}

/** What an answer has that is not a refusal. */
const isThere = answer => answer.status === RAN || answer.status === ALERTED;

/** A worker: it unpacks what the page carries, and makes calls of the library one after another. */
class Library {
  /** `script` is the address of the worker's script; a `module` that is there spares unpacking one. */
  constructor(script, module = null) {
    this.script = script;
    this.module = module;
    this.waiting = new Map();
    this.id = 0;
    this.start();
  }

  /** Another worker with the same module, once there is one. */
  another() { return new Library(this.script, this.module); }

  start() {
    const worker = (this.worker = new Worker(this.script));
    worker.onerror = why => { if (worker === this.worker) this.failed(why.message); };
    worker.onmessage = ({ data }) => { if (worker === this.worker) this.answered(data); };
    if (this.module) worker.postMessage({ module: this.module });
  }

  /** Unpacks a part of the page. */
  unpack(part) { return this.send({ packed: part.textContent, length: part.dataset.length }).then(answer => answer.bytes); }

  /** Unpacks the module, which calls need. */
  async load(part) {
    this.module = (await this.send({ packed: part.textContent, length: part.dataset.length, compiles: true })).module;
    this.names = new Set(WebAssembly.Module.exports(this.module).map(one => one.name));
  }

  /** Ends all calls that have not answered with an error. */
  failed(why) {
    const left = [...this.waiting.values()];
    this.waiting.clear();
    for (const { fail } of left) fail(new Error(why));
  }

  answered({ id, broken, memory, ...answer }) {
    if (!this.waiting.has(id)) return; // it was stopped
    const { done, fail } = this.waiting.get(id);
    this.waiting.delete(id);
    if (broken) fail(new Error(broken));
    else done({ ...answer, text: () => decoded(answer.bytes) });
    if (memory > MOST_KEPT && !this.waiting.size) this.restart();
  }

  restart() {
    this.worker.terminate();
    this.start();
  }

  send(message) {
    const id = ++this.id;
    return new Promise((done, fail) => {
      this.waiting.set(id, { done, fail });
      this.worker.postMessage({ id, ...message });
    });
  }

  /** Makes a call over two texts and further numbers, after those that were asked for before. */
  ask(name, texts, numbers = [], room = 1 << 20) { return this.send({ name, texts, numbers, room }); }

  /** Ends all calls that have not answered. */
  stop() {
    if (!this.waiting.size || !this.module) return;
    const left = [...this.waiting.values()];
    this.waiting.clear();
    this.restart();
    for (const { fail } of left) fail(new Stopped('stopped'));
  }
}
