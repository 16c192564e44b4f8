// @ts-check
/**
 * A client of `mercator serve`, the URL frontier for crawlers, for Node 18 or later. README.md
 * shows how to use it, and docs/SESSION.md describes the protocol.
 *
 * - There is one queue per worker, numbered from 0. All URLs of a host are in one queue.
 * - Each URL is given out once, however it is spelled, and once more each time it is put back. The
 *   crawl is over when all of them are done.
 * - With `log`, a crawl that was killed resumes: run it again with the same options.
 * - URLs that are refused because too many are unfinished are kept in memory, and are offered again
 *   when there is room. A kill loses them.
 */

import { spawn } from 'node:child_process';

/**
 * The result of an offer: the queue that the URL waits in, and its number there from 0; or why it
 * was not accepted. After `refused full`, the client offers the URL again by itself.
 * @typedef {{accepted: true, queue: number, number: number}
 *   | {accepted: false, reason: Refusal}} Offer
 * @typedef {(typeof REFUSALS)[number]} Refusal
 *
 * Numbers of URLs. Each accepted one is done, in progress or waiting; some of these were put back.
 * @typedef {Record<'accepted'|'done'|'inProgress'|'waiting'|'putBack'|'seen', number>} Stats
 *
 * @typedef {object} Options
 * @property {number} [workers] Number of workers and queues, 1 to 512; 4 by default.
 * @property {number} [maxPending] Most URLs waiting or in progress at a time.
 * @property {string} [within] Accept only hosts equal to this suffix or subdomains of it.
 * @property {string} [log] File that gets all requests, from which a crawl resumes.
 * @property {boolean} [sync] Sync the log to disk before each answer.
 * @property {string} [program] The program; by default $MERCATOR, or `mercator` on the PATH.
 */

const PIECE = 1_000; // this many requests are sent before their answers are awaited
const TOO_LONG = `offer ${'x'.repeat(4_091)}`; // sent for any request of more than 4,096 bytes
const EXIT_MS = 10_000; // how long the program may take to exit
const STATS = /^accepted (\d+) done (\d+) in-progress (\d+) waiting (\d+) put-back (\d+) seen (\d+)(?: |$)/;
const REFUSALS = /** @type {const} */ (['seen', 'filtered', 'not a URL', 'not http or https',
  'line too long', 'not UTF-8', 'refused closed', 'refused full']);

/** The base class of all errors of this module. */
export class FrontierError extends Error {
  get name() { return this.constructor.name; }
}

/** The program `mercator` could not be started. */
export class ProgramMissing extends FrontierError {}
/** Another program uses the log. */
export class LogInUse extends FrontierError {}
/** A URL was taken from a queue whose last URL is still in progress. */
export class QueueBusy extends FrontierError {}
/** The queue is not working on a URL. */
export class NothingTaken extends FrontierError {}
/** There is no queue with this number. */
export class NoSuchQueue extends FrontierError {}
/** The program gave an answer that this client does not know. */
export class UnknownAnswer extends FrontierError {}

/** The program has exited, or was closed, so that no request is answered any more. */
export class FrontierEnded extends FrontierError {
  status = /** @type {number | null} */ (null); // the program's exit status
  signal = /** @type {string | null} */ (null); // the signal that killed it
  stderr = ''; // the end of what it printed on standard error
}

/** The program as a process, and the answers that it owes. */
class Channel {
  /** @type {{left: number, each: (answer: string) => void, fail: (error: Error) => void}[]} */
  #owed = [];
  #rest = '';
  #stderr = '';
  /** @type {FrontierError | undefined} */
  #end;

  /** `onEnd` is called once, when no more answers will come. */
  constructor(/** @type {string} */ program, /** @type {string[]} */ args,
    /** @type {(error: FrontierError) => void} */ onEnd) {
    this.onEnd = onEnd;
    // In a session of its own, so that Ctrl-C reaches only the crawler.
    const child = this.child = spawn(program, args, { detached: true, stdio: 'pipe' });
    child.stdout.setEncoding('utf8').on('data', (text) => this.#read(text));
    // It has to be read, or the program could wait for a reader. Its end is kept for errors.
    child.stderr.setEncoding('utf8').on('data', (text) => {
      this.#stderr = (this.#stderr + text).slice(-8_192);
    });
    child.stdin._writev = undefined; // Node would join pieces that wait: see `send`
    // EPIPE: the program has exited, and the event `close` says how.
    child.stdin.on('error', () => {});
    this.exited = /** @type {Promise<void>} */ (new Promise((resolve) => {
      child.on('error', (error) => {
        if (child.pid !== undefined) return;
        this.#fail(new ProgramMissing(`${program}: ${error.message}`));
        resolve();
      });
      child.on('close', (status, signal) => {
        const stderr = this.#stderr.trim();
        const how = signal ? `was killed by ${signal}` : `exited with status ${status}`;
        const error = new FrontierEnded(`${program} ${how}${stderr && `: ${stderr}`}`);
        this.#fail(Object.assign(error, { status, signal, stderr }));
        resolve();
      });
    }));
  }

  /** Sends one or more lines. `each` gets each answer before the next answer is handled. */
  send(/** @type {string[]} */ lines, /** @type {(answer: string) => void} */ each,
    /** @type {(error: Error) => void} */ fail) {
    if (this.#end) return fail(this.#end);
    this.#owed.push({ left: lines.length, each, fail });
    // Up to 4,096 bytes are written as a whole, so a kill of this process cuts off no request. A
    // character has at most three bytes.
    const pieces = `${lines.join('\n')}\n`.match(/[^]{0,1364}\n|[^\n]*\n/g) ?? [];
    for (const piece of pieces) this.child.stdin.write(piece);
  }

  #read(/** @type {string} */ text) {
    const lines = (this.#rest + text).split('\n');
    this.#rest = lines.pop() ?? '';
    let head = 0; // the answers before it are complete
    for (const line of lines) {
      const owed = this.#owed[head];
      if (this.#end) return;
      if (!owed) return this.kill(new UnknownAnswer(`an answer without a request: ${line}`));
      if (--owed.left === 0) head += 1;
      owed.each(line);
    }
    this.#owed.splice(0, head);
  }

  #fail(/** @type {FrontierError} */ error) {
    if (this.#end) return;
    this.#end = error;
    for (const owed of this.#owed) owed.fail(error);
    this.onEnd(error);
  }

  kill(/** @type {FrontierError} */ error) {
    this.#fail(error);
    this.child.kill('SIGKILL');
  }

  /** Ends the program's input, and waits until the program has exited. */
  async close() {
    this.#fail(new FrontierEnded('the frontier was closed by the crawler'));
    this.child.stdin.end();
    const timer = setTimeout(() => this.child.kill('SIGKILL'), EXIT_MS);
    await this.exited;
    clearTimeout(timer);
  }
}

/** A frontier that runs as a process, with one queue per worker. `Frontier.open` starts one. */
export class Frontier {
  #channel;
  /** @type {{ask: () => void, fail: (error: Error) => void}[][]} who waits in each queue */
  #waiting;
  /** @type {(string | null)[]} by queue, what was in progress when the log ended */
  #resumed = [];
  #putBack = new Set(); // the queues whose last URL was put back
  /** @type {string[]} requests that were refused for lack of room */
  #kept = [];
  #mayHaveRoom = false;
  /** @type {Promise<void> | undefined} */
  #offering;

  constructor(/** @type {Options} */ options) {
    const { workers = 4, maxPending, within, log, sync = false } = options;
    const wait = log && 10; // seconds
    const values = Object.entries({ workers, 'max-pending': maxPending, within, log, wait })
      .filter(([, value]) => value !== undefined).map(([name, value]) => `--${name}=${value}`);
    const args = ['serve', ...values, ...(sync ? ['--sync'] : [])];
    this.workers = workers;
    this.#waiting = Array.from({ length: workers }, () => []);
    const program = options.program ?? (process.env.MERCATOR || 'mercator');
    this.#channel = new Channel(program, args, (error) => {
      for (const waiting of this.#waiting) for (const { fail } of waiting.splice(0)) fail(error);
    });
  }

  /**
   * Starts a frontier. If `log` exists, the crawl resumes, and each queue first gives out the URL
   * that was in progress. The program of a crawler that was killed may use the log a moment longer:
   * the new program waits for it, and after ten seconds this call throws `LogInUse`.
   */
  static async open(/** @type {Options} */ options = {}) {
    const frontier = new Frontier(options);
    try {
      const inProgress = frontier.#waiting.map((_, queue) => frontier.again(queue));
      frontier.#resumed = await Promise.all(inProgress);
      return frontier;
    } catch (error) {
      await frontier.close();
      const isInUse = error instanceof FrontierEnded && error.status === 5;
      throw isInUse ? new LogInUse(error.stderr) : error;
    }
  }

  /** How many URLs were refused, and are kept to be offered again. */
  get kept() { return this.#kept.length; }

  /** Offers a URL. */
  async offer(/** @type {string} */ url) { return (await this.offerAll([url]))[0]; }

  /** Offers URLs in their order. There is one result per URL. */
  offerAll(/** @type {Iterable<string>} */ urls) { return this.#offerEach('offer ', urls); }

  /**
   * Offers the URLs of a page's links, in their order. Await it before the page is done. `base` is
   * the URL of the page, or that of its `<base>`, and `texts` are the links as they appear on it.
   */
  links(/** @type {string} */ base, /** @type {Iterable<string>} */ texts) {
    // In a request the base ends at its first space. The rest is what the URL Standard strips.
    const trimmed = base.replace(/^[\0- ]+|[\0- ]+$|[\t\n\r]/g, '').replace(/ /g, '%20');
    return this.#offerEach(`link ${trimmed} `, texts);
  }

  /**
   * Says that all seeds were offered, so that the crawl can end. Returns how many URLs are
   * unfinished, or null if the seeds had already ended, as they may have before a restart.
   */
  async endSeeds() {
    const asked = this.#askFor('count', 'endseeds');
    this.#offerKept();
    const count = await asked;
    return count === null ? null : Number(count);
  }

  /**
   * Takes the URL that has waited longest in a queue. If there is none, waits until there is one,
   * or until the crawl is over: then it returns null.
   * @param {number} queue @returns {Promise<string | null>}
   */
  take(queue) {
    return new Promise((resolve, reject) => {
      this.#check(queue);
      this.#putBack.delete(queue);
      const ask = /** @type {() => void} */ (() => {
        // The crawl must not end while URLs that were refused are offered again.
        if (this.#offering) return void this.#offering.then(ask);
        this.#channel.send([`next ${queue}`], (answer) => {
          if (answer.startsWith('taken ')) return resolve(answer.slice(6));
          if (answer === 'closed') return resolve(null);
          if (!answer.startsWith('pending ')) return reject(this.#errorOf(answer));
          // It waits from here on: the next answer may have been read already, and end the wait.
          this.#waiting[queue].push({ ask, fail: reject });
        }, reject);
      });
      const url = this.#resumed[queue];
      this.#resumed[queue] = null;
      if (url) resolve(url); else ask();
    });
  }

  /** Says that a queue's URL is finished, fetched or not. Returns how many URLs are unfinished. */
  done(/** @type {number} */ queue) { return this.#release('done', queue); }

  /**
   * Puts a queue's URL back to the end of the queue, to be taken again after all that wait there
   * now. If no other waits, `take` returns it immediately. Returns how many URLs are unfinished.
   */
  later(/** @type {number} */ queue) { return this.#release('later', queue); }

  /** The URL that a queue is working on, or null. */
  async again(/** @type {number} */ queue) {
    this.#check(queue);
    return this.#askFor('taken', `again ${queue}`);
  }

  /** The numbers of URLs in a queue, or all. @param {number} [queue] @returns {Promise<Stats>} */
  async stats(queue) {
    if (queue !== undefined) this.#check(queue);
    const text = await this.#askFor('stats', queue === undefined ? 'stats' : `stats ${queue}`);
    const match = STATS.exec(text ?? '');
    if (!match) throw this.#errorOf(`stats ${text}`);
    const [accepted, done, inProgress, waiting, putBack, seen] = match.slice(1).map(Number);
    return { accepted, done, inProgress, waiting, putBack, seen };
  }

  /**
   * The URLs of a queue, for `for await`. Unless it was put back, a URL is done when the loop asks
   * for the next one. If the loop is left early, its URL stays in progress: with a log, the next
   * run gets it again.
   */
  async* queue(/** @type {number} */ queue) {
    for (let url = await this.take(queue); url !== null;) {
      yield url;
      [, url] = await Promise.all([this.#putBack.has(queue) || this.done(queue), this.take(queue)]);
    }
  }

  /**
   * Calls `handler` for each URL, for one at a time per queue, until the crawl is over. A URL is
   * done when its handler returns, unless that has put it back by `later`. If one throws, the
   * frontier is closed, and after the other handlers have ended `run` throws that error.
   */
  async run(/** @type {(url: string, queue: number) => unknown} */ handler) {
    const errors = /** @type {unknown[]} */ ([]);
    await Promise.all(this.#waiting.map(async (_, queue) => {
      try {
        for await (const url of this.queue(queue)) await handler(url, queue);
      } catch (error) {
        errors.push(error);
        await this.close();
      }
    }));
    if (errors.length) throw errors[0];
  }

  /** Ends the program. Calls that wait, and later ones, throw `FrontierEnded`. */
  close() { return this.#channel.close(); }

  async #release(/** @type {'done' | 'later'} */ word, /** @type {number} */ queue) {
    this.#check(queue);
    this.#resumed[queue] = null;
    const asked = this.#askFor('count', `${word} ${queue}`);
    if (word === 'done') this.#offerKept(); else this.#putBack.add(queue);
    const count = await asked;
    if (count === null) throw new NothingTaken('the queue is not working on a URL');
    return Number(count);
  }

  async #offerEach(/** @type {string} */ word, /** @type {Iterable<string>} */ texts) {
    // A request is one line. The URL Standard removes each LF, and a CR at the end.
    const lines = Array.from(texts, (text) => word + text.replace(/\n|\r$/g, ''))
      .map((line) => (Buffer.byteLength(line) > 4_096 ? TOO_LONG : line));
    const offers = /** @type {Offer[]} */ ([]);
    while (offers.length < lines.length) {
      const piece = lines.slice(offers.length, offers.length + PIECE);
      const answers = await this.#ask(piece);
      this.#kept.push(...piece.filter((_, i) => answers[i] === 'refused full'));
      for (const answer of answers) offers.push(this.#offerOf(answer));
    }
    return offers;
  }

  /**
   * Offers what was kept, since there may be room now. The first requests are sent before this
   * returns, and `take` sends nothing until all are answered, so the crawl cannot end without them.
   */
  #offerKept() {
    this.#mayHaveRoom = true;
    if (this.#offering || !this.#kept.length) return;
    const offerAll = async () => {
      while (this.#mayHaveRoom && this.#kept.length) {
        this.#mayHaveRoom = false;
        const offer = this.#kept.splice(0, 1);
        const [answer] = await this.#ask(offer);
        if (answer === 'refused full') this.#kept.unshift(...offer); else this.#mayHaveRoom = true;
      }
    };
    // If the program has ended, the calls that follow say so.
    this.#offering = offerAll().catch(() => {}).finally(() => { this.#offering = undefined; });
  }

  /** Sends requests, and returns their answers. */
  #ask(/** @type {string[]} */ lines) {
    const answers = /** @type {string[]} */ ([]);
    return new Promise((/** @type {(answers: string[]) => void} */ resolve, reject) => {
      this.#channel.send(lines, (answer) => {
        if (answer.startsWith('accepted ')) this.#wake(Number(answer.split(' ')[1]));
        if (answer === 'count 0') this.#waiting.forEach((_, queue) => this.#wake(queue));
        if (answers.push(answer) === lines.length) resolve(answers);
      }, reject);
    });
  }

  /** Sends a request. Returns what follows this word in its answer; null if that is refused. */
  async #askFor(/** @type {string} */ word, /** @type {string} */ request) {
    const [answer] = await this.#ask([request]);
    if (answer === 'refused nothing') return null;
    if (!answer.startsWith(`${word} `)) throw this.#errorOf(answer);
    return answer.slice(word.length + 1);
  }

  #wake(/** @type {number} */ queue) {
    for (const { ask } of this.#waiting[queue]?.splice(0) ?? []) ask();
  }

  #check(/** @type {number} */ queue) {
    if (!this.#waiting[queue]) throw new NoSuchQueue(`there is no queue ${queue}`);
  }

  /** @param {string} answer @returns {Offer} */
  #offerOf(answer) {
    const [, queue, number] = /^accepted (\d+) (\d+)$/.exec(answer) ?? [];
    if (number) return { accepted: true, queue: Number(queue), number: Number(number) };
    const reason = REFUSALS.find((refusal) => refusal === answer);
    if (!reason) throw this.#errorOf(answer);
    return { accepted: false, reason };
  }

  #errorOf(/** @type {string} */ answer) {
    if (answer === 'refused busy') return new QueueBusy('its last URL is in progress');
    const error = new UnknownAnswer(`unknown answer: ${answer}`);
    this.#channel.kill(error); // nobody knows what the program means
    return error;
  }
}
