// Workers that label parts of a file. A worker that ends is started anew, and its part is tried once more.

const MOST_WORKERS = 16;
const AHEAD = 2;
const TRIES = 2;

export class Pool {
  constructor(address, module) {
    Object.assign(this, { address, module, waiting: [], isClosed: false });
    const count = Math.max(1, Math.min(MOST_WORKERS, navigator.hardwareConcurrency || 2));
    this.workers = Array.from({ length: count }, () => ({ job: null, thread: null }));
    for (const worker of this.workers) this.start(worker);
  }

  // What a thread says after another one took its place doesn't count.
  start(worker) {
    const thread = new Worker(this.address);
    worker.thread = thread;
    thread.postMessage({ module: this.module });
    thread.addEventListener("message", ({ data }) => { if (thread === worker.thread) this.settle(worker, data); });
    thread.addEventListener("error", (event) => {
      event.preventDefault();
      if (thread === worker.thread) this.restart(worker, event.message || "a worker of the page ended");
    });
  }

  // What becomes of a job, as a worker answers it.
  ask(message) {
    const job = { message, tries: 0 };
    const asked = new Promise((resolve, reject) => Object.assign(job, { resolve, reject }));
    // the fault of a part is reported when its turn comes
    asked.catch(() => {});
    if (this.isClosed) {
      job.reject(new Error("stopped"));
    } else {
      this.waiting.push(job);
      this.next();
    }
    return asked;
  }

  next() {
    for (const worker of this.workers) {
      if (worker.job || !this.waiting.length) continue;
      worker.job = this.waiting.shift();
      worker.job.tries++;
      worker.thread.postMessage(worker.job.message);
    }
  }

  settle(worker, { result, fault }) {
    const { job } = worker;
    worker.job = null;
    if (fault === undefined) job.resolve(result);
    else job.reject(new Error(fault));
    this.next();
  }

  restart(worker, words) {
    const { job } = worker;
    worker.thread.terminate();
    worker.job = null;
    if (this.isClosed) return;
    this.start(worker);
    if (job && job.tries < TRIES) this.waiting.unshift(job);
    else if (job) job.reject(new Error(words));
    this.next();
  }

  get room() { return AHEAD * this.workers.length; }

  close() {
    this.isClosed = true;
    for (const { thread } of this.workers) thread.terminate();
    for (const { reject } of [...this.waiting, ...this.workers.flatMap(({ job }) => job || [])]) {
      reject(new Error("stopped"));
    }
    this.waiting = [];
  }
}
