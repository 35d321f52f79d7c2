// Embedding: with `?embed=ORIGIN` a page of that origin that has this one in a frame sends it messages, and gets some. Without it no message is heard or sent.
//
// To the frame:   { execsim: 1, do: 'load', machine, events }   shows and runs two texts; with `of`, as those of an example or a lesson that were changed
//                 { execsim: 1, do: 'step', step }              goes to a step
//                 { execsim: 1, do: 'get' }                     asks for the texts as they are
//                 { execsim: 1, do: 'exercise' }                judges what is shown by the rule of its exercise, in every way
// From the frame: did: 'ready'    it can be asked
//                 did: 'run'      texts were run: their last step `end`, the `lines` of their trace, and whether they were `alerted`
//                 did: 'step'     a step is shown: `step`, of how many, whether it is `alerted`, and its `sentence`
//                 did: 'get'      both texts, and the step
//                 did: 'check'    an exercise was judged: whether it `holds`, in how many `ways`, and how many of them are `wrong`
//                 did: 'refused'  and `why`: another version or kind of message, texts that are refused, or that an exercise does not allow

const MESSAGES = 1;

class Embed {
  /** `deeds` do what a message asks for: load, step, get. */
  constructor(deeds) {
    this.deeds = deeds;
    const asked = new URLSearchParams(location.search).get('embed');
    this.origin = asked && /^https?:\/\/[^/]+$/.test(asked) ? asked : null;
    if (asked !== null) document.body.classList.add('embed');
    this.refusal = asked !== null && !this.origin ? 'embed= is to name the origin of the page around this one, as https://example.org' : '';
    if (this.origin) addEventListener('message', event => { if (event.source === parent && event.origin === this.origin) this.hear(event.data); });
  }

  tell(message) { if (this.origin && parent !== window) parent.postMessage({ execsim: MESSAGES, ...message }, this.origin); }

  refuse(why) { this.tell({ did: 'refused', why }); }

  async hear(message) {
    if (message === null || typeof message !== 'object' || !('execsim' in message)) return; // it is for someone else
    if (message.execsim !== MESSAGES) return this.refuse(`this page knows version ${MESSAGES} of the messages`);
    const deed = Object.hasOwn(this.deeds, message.do) ? this.deeds[message.do] : null;
    if (!deed) return this.refuse(`there is no such message: ${String(message.do).slice(0, 40)}; there are ${Object.keys(this.deeds).join(', ')}`);
    const why = await deed(message);
    if (why) this.refuse(why);
  }
}
