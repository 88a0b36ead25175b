// ---- the program, in workers

// Reads a stream to its end, up to a number of bytes.
async function bytes_of(stream, most) {
  const reader = stream.getReader(), parts = [];
  let count = 0;
  for (let it = await reader.read(); !it.done; it = await reader.read()) {
    count += it.value.length;
    if (count > most) {
      await reader.cancel();
      throw new RangeError(`more than ${most} bytes`);
    }
    parts.push(it.value);
  }
  return new Uint8Array(await new Blob(parts).arrayBuffer());
}
const piped = (bytes, stream, most) => bytes_of(new Blob([bytes]).stream().pipeThrough(stream), most);

const MOST_MODULE = 2 ** 26;
const from_base64 = (text) => Uint8Array.from(atob(text), (it) => it.charCodeAt(0));
async function compile_program() {
  const packed = from_base64(by_id('program').textContent.trim());
  return WebAssembly.compile(await piped(packed, new DecompressionStream('gzip'), MOST_MODULE));
}

// The program, or why it isn't there.
let program = null, absent = 'the program is loading';
const worker_address = URL.createObjectURL(new Blob([by_id('worker').textContent], {type: 'text/javascript'}));

const stopped = (why) => ({status: null, out: '', err: `the program stopped: ${why}`, files: {}});

// A worker, which answers calls in their order. A call that is dropped is answered with null.
class Caller {
  constructor() {
    this.waiting = new Map();
    this.last = 0;
    this.start();
  }

  start() {
    this.worker = new Worker(worker_address);
    this.worker.onmessage = ({data}) => this.end(data.id, data);
    this.worker.onerror = (error) => this.end(Math.min(...this.waiting.keys()), stopped(error.message));
    this.worker.postMessage({program});
  }

  end(id, done) {
    const take = this.waiting.get(id);
    this.waiting.delete(id);
    if (done.status === null) this.restart();
    if (take) take(done);
  }

  run(words, files, input = '') {
    this.last += 1;
    const id = this.last;
    return new Promise((take) => {
      this.waiting.set(id, take);
      this.worker.postMessage({id, words, files, input: encode(input)});
    });
  }

  // Ends the worker, and drops the calls that it hasn't answered.
  stop() {
    this.worker.terminate();
    const dropped = [...this.waiting.values()];
    this.waiting.clear();
    for (const take of dropped) take(null);
  }

  restart() {
    this.stop();
    this.start();
  }

  // Makes room for newer calls.
  drop() {
    if (this.waiting.size) this.restart();
  }
}
