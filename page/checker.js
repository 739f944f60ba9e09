// The checker, asked from the page: it runs in a worker of this page's own script, which is ended where a check is to stop.

/** A verdict as `cordkit check` prints it. */
export function line(v) {
  if (v.code === 0) return `accepted ${v.revisions} revisions ${v.nodes} nodes ${v.rows} rows`;
  const special = { 1: `C1(I${v.kind})`, 2: "C2", 11: `C11(${v.number},${v.row})`, 12: `C12(S${v.kind})`, 13: `S${v.kind}` };
  return `refused ${special[v.code] ?? `C${v.code}(${v.number})`}`;
}

const SENTENCES = {
  1: "The bytes are no image, or not a whole one.",
  2: "The image was made over more or fewer sources than were given.",
  3: "A source is not as long as the image says.",
  4: "A node has no such child or source.",
  5: "A node's recorded length is not its length.",
  6: "A node's recorded depth is not its depth.",
  7: "A node's span lies outside of what it is a span of.",
  8: "A command is out of range.",
  9: "A revision's root is none, or has another length than its command gives.",
  10: "A root that is marked as balanced is not.",
  11: "The rows of a revision do not show that its text is what its command gives.",
  12: "A row compares bytes of a source that were not given.",
  13: "The sources cannot be a session's: there are too many, or one is too long.",
};

/** What a refusal means, in a sentence. */
export const sentence = (v) => SENTENCES[v.code] ?? "";

/** Whether this browser has memories with 64-bit places, which the checker wants. */
export const hasLongMemories = () => WebAssembly.validate(Uint8Array.from([0, 0x61, 0x73, 0x6d, 1, 0, 0, 0, 5, 3, 1, 4, 1]));

export class Checker {
  constructor(source, module) {
    this.address = URL.createObjectURL(new Blob([source], { type: "text/javascript" }));
    this.module = module;
    this.next = 0;
    this.begin();
  }

  begin() {
    this.waiting = new Map();
    this.worker = new Worker(this.address);
    this.worker.onmessage = ({ data }) => {
      const asked = this.waiting.get(data.id);
      this.waiting.delete(data.id);
      if (data.error === undefined) asked?.done(data.answer);
      else asked?.fail(new Error(data.error));
    };
    this.worker.onerror = (event) => this.fail(event.message);
    this.ready = this.ask("start", { module: this.module });
  }

  /** Ends what runs, and begins with nothing held. */
  end() {
    this.worker.terminate();
    this.fail("stopped");
    this.begin();
  }

  fail(why) {
    for (const asked of this.waiting.values()) asked.fail(new Error(why));
    this.waiting.clear();
  }

  ask(what, words = {}, transferred = []) {
    const id = this.next++;
    const answer = new Promise((done, fail) => this.waiting.set(id, { done, fail }));
    this.worker.postMessage({ ...words, id, ask: what }, transferred);
    return answer;
  }
}
