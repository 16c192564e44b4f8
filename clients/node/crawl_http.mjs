#!/usr/bin/env node
// @ts-check
/**
 * A crawler over `mercator serve`. It fetches pages over HTTP with N workers, and visits each host
 * with one of them.
 *
 * Usage: crawl_http.mjs [--workers N] [--within SUFFIX] [--log FILE] [--delay S] [--largest BYTES]
 *                       [--pages N] [--agent NAME] [--program FILE] SEED..
 *
 * It prints a line for each URL: the status, the number of its links that are new, and the URL. The
 * status is `robots` if robots.txt forbids the URL, `no-robots` if robots.txt cannot be read, and
 * `failed` if the host does not respond.
 *
 * - It respects robots.txt, and waits between two requests to a host: --delay seconds, or the
 *   Crawl-delay of robots.txt if that is longer. Meanwhile the worker visits its other hosts, so
 *   the URLs of a host are not always fetched in the order in which they were found. It skips a
 *   host if its robots.txt asks for more than a day, or if three requests for it fail: there is no
 *   response, or its status is 5xx.
 * - It reads at most --largest bytes of a page, in at most SECONDS.
 * - It offers the target of a redirect, and does not follow it.
 * - With --log, it resumes after Ctrl-C, `kill -9` or a crash: run the same command again.
 *
 * The scanner for links is small. It does not read `<meta charset>`, `srcset`, style sheets or
 * scripts, and decodes numeric and the five most common character references only. The crawler does
 * not ask for compressed pages, keeps no cookies, and does not retry a page.
 *
 * Exit status: 0 no URL is left, 1 the frontier failed, 2 Ctrl-C, or --pages URLs were fetched,
 * 3 bad command line.
 */

import { realpathSync } from 'node:fs';
import http from 'node:http';
import https from 'node:https';
import { setTimeout as sleep } from 'node:timers/promises';
import { pathToFileURL } from 'node:url';
import { parseArgs } from 'node:util';

import { Frontier, FrontierError } from './mercator_frontier.mjs';

const SECONDS = 30;
const DAY = 86_400;
const ROBOTS_BYTES = 500_000;
/** A search for a host that need not wait ends after this many URLs of hosts that it has met. */
const OLD_HOSTS = 8;
const REDIRECTS = new Set([301, 302, 303, 307, 308]);
const PAGES = new Set(['text/html', 'application/xhtml+xml']);
/** The attribute with the link, by element. */
const LINKS = new Map([
  ['a', 'href'], ['area', 'href'], ['frame', 'src'], ['iframe', 'src'], ['img', 'src'],
  ['link', 'href'], ['script', 'src'],
]);
/** Elements whose content has no tags. */
const RAW = new Set([
  'iframe', 'noembed', 'noframes', 'script', 'style', 'textarea', 'title', 'xmp',
]);
const REFERENCES = new Map([['amp', '&'], ['apos', "'"], ['gt', '>'], ['lt', '<'], ['quot', '"']]);

/**
 * @typedef {object} Reply
 * @property {string} status `failed` if there is no response
 * @property {string} [target] where a redirect leads
 * @property {string} type
 * @property {string} text
 */

/**
 * Fetches a URL. What cannot be read in time, or is larger, is cut off.
 *
 * @param {string} url
 * @param {string} agent
 * @param {number} largest
 * @param {boolean} [isRobots] read the text whatever its type is
 * @returns {Promise<Reply>}
 */
export function get(url, agent, largest, isRobots = false) {
  const reply = replyOf('failed');
  /** @type {Buffer[]} */
  const parts = [];
  let [size, charset] = [0, 'utf-8'];
  return new Promise((resolve, reject) => {
    const request = (url.startsWith('https:') ? https : http)
      .get(url, { agent: false, headers: { 'user-agent': agent } });
    const end = () => {
      clearTimeout(timer);
      request.destroy();
      resolve({ ...reply, text: decoded(Buffer.concat(parts).subarray(0, largest), charset) });
    };
    const timer = setTimeout(end, SECONDS * 1000);
    request.on('error', end);
    request.on('response', (response) => {
      const [type, ...parameters] = (response.headers['content-type'] ?? '').split(';');
      reply.status = String(response.statusCode);
      reply.type = type.trim().toLowerCase();
      charset = /^\s*charset\s*=\s*"?([^\s"]+)/i.exec(parameters.join(';'))?.[1] ?? charset;
      response.on('error', end).on('close', end);
      if (REDIRECTS.has(Number(response.statusCode))) {
        reply.target = inUtf8(response.headers.location);
        return end();
      }
      if (response.statusCode !== 200 || !(isRobots || PAGES.has(reply.type))) return end();
      response.on('data', (part) => {
        size += parts.push(part) && part.length;
        if (size >= largest) end();
      });
    });
  }).catch(() => reply); // Node refuses the URL
}

/** @param {string} status @returns {Reply} */
function replyOf(status) {
  return { status, type: '', text: '' };
}

/** @param {Buffer} bytes @param {string} charset */
function decoded(bytes, charset) {
  try {
    return new TextDecoder(charset).decode(bytes);
  } catch {
    return bytes.toString(); // there is no such charset
  }
}

/** Servers send UTF-8 in headers, and Node reads Latin-1. */
function inUtf8(/** @type {string | undefined} */ text) {
  const other = text && Buffer.from(text, 'latin1').toString();
  return other?.includes('\ufffd') ? text : other;
}

/** The rules of a robots.txt for an agent, after RFC 9309. */
export class Robots {
  /** @type {{pattern: string, allows: boolean}[]} */
  rules = [];
  /** Seconds between two requests; NaN if it is not a number. */
  delay = 0;

  /** @param {string} text @param {string} agent */
  constructor(text, agent) {
    const product = agent.split(/[\s/]/)[0].toLowerCase();
    const groups = groupsOf(text);
    const mine = groups.filter(({ agents }) => agents.includes(product));
    for (const group of mine.length ? mine : groups.filter(({ agents }) => agents.includes('*'))) {
      for (const { key, value } of group.rules) {
        if (key === 'crawl-delay') this.delay = Number(value);
        else if (value) this.rules.push({ pattern: escaped(value), allows: key === 'allow' });
      }
    }
  }

  /** The longest pattern that matches decides, and `allow` if there are two. */
  allows(/** @type {string} */ url) {
    const { pathname, search } = new URL(url);
    const path = escaped(pathname + search);
    let [length, allows] = [-1, true];
    for (const rule of this.rules) {
      const size = rule.pattern.length;
      if ((size > length || (size === length && rule.allows)) && matches(rule.pattern, path)) {
        [length, allows] = [size, rule.allows];
      }
    }
    return allows;
  }
}

/** @param {string} text */
function groupsOf(text) {
  /** @type {{agents: string[], rules: {key: string, value: string}[]}[]} */
  const groups = [];
  let isInAgents = false;
  for (const line of text.replace(/^\ufeff/, '').split(/\r\n?|\n/)) {
    const match = /^\s*([a-z-]+)\s*:\s*([^#]*)/i.exec(line);
    const [key, value] = match ? [match[1].toLowerCase(), match[2].trim()] : ['', ''];
    if (key === 'user-agent') {
      if (!isInAgents) groups.push({ agents: [], rules: [] });
      groups[groups.length - 1].agents.push(value.split('/')[0].toLowerCase());
      isInAgents = true;
    } else if (['allow', 'disallow', 'crawl-delay'].includes(key)) {
      groups[groups.length - 1]?.rules.push({ key, value });
      isInAgents = false;
    }
  }
  return groups;
}

/** The text with its escapes in one form, so that texts can be compared. */
function escaped(/** @type {string} */ text) {
  return text.replace(/%[0-9a-f]{2}/gi, (escape) => escape.toUpperCase())
    .replace(/[^!-~]/gu, encodeURIComponent);
}

/** Whether a path matches a pattern with `*`, and `$` at the end. */
function matches(/** @type {string} */ pattern, /** @type {string} */ path) {
  const isWhole = pattern.endsWith('$');
  const [first, ...rest] = (isWhole ? pattern.slice(0, -1) : pattern).split('*');
  if (!path.startsWith(first)) return false;
  const last = isWhole ? rest.pop() : undefined;
  let at = first.length;
  for (const piece of rest) {
    const found = path.indexOf(piece, at);
    if (found < 0) return false;
    at = found + piece.length;
  }
  if (last !== undefined) return path.length - last.length >= at && path.endsWith(last);
  return !isWhole || at === path.length;
}

/**
 * The texts of the links on a page, and the base that they are resolved against.
 *
 * @param {string} url
 * @param {string} page
 */
export function linksOf(url, page) {
  let base = url;
  let hasBase = false;
  const texts = [];
  for (const { name, attributes } of tagsOf(page)) {
    const text = attributes.get(LINKS.get(name) ?? '');
    if (text !== undefined) texts.push(text);
    const href = attributes.get('href');
    if (name === 'base' && href !== undefined && !hasBase) {
      [base, hasBase] = [joined(url, href), true];
    }
  }
  return { base, texts };
}

/** @param {string} base @param {string} text */
function joined(base, text) {
  try {
    return new URL(text, base).href;
  } catch {
    return base;
  }
}

/** The start tags of a page. */
function* tagsOf(/** @type {string} */ page) {
  const tag = /<(?:!--|([a-z][^\s/>]*)|[/!?])/gi;
  // No text is read twice, so that a page cannot make this slow.
  for (let found = tag.exec(page); found; found = tag.exec(page)) {
    if (!found[1]) {
      const end = found[0] === '<!--' ? '-->' : '>';
      const at = page.indexOf(end, found.index + 2);
      if (at < 0) return;
      tag.lastIndex = at + end.length;
      continue;
    }
    const name = found[1].toLowerCase();
    const attribute =
      /[\s/]*(?:(>)|(=?[^\s/>=]*)(?:\s*=\s*(?:"([^"]*)"?|'([^']*)'?|([^\s>]*)))?)/gy;
    attribute.lastIndex = tag.lastIndex;
    const attributes = new Map();
    for (let part = attribute.exec(page); ; part = attribute.exec(page)) {
      if (!part || attribute.lastIndex >= page.length && !part[1]) return; // the tag does not end
      if (part[1]) break;
      const key = part[2].toLowerCase();
      if (!attributes.has(key)) attributes.set(key, unescaped(part[3] ?? part[4] ?? part[5] ?? ''));
    }
    tag.lastIndex = attribute.lastIndex;
    yield { name, attributes };
    if (RAW.has(name)) {
      const close = new RegExp(`</${name}(?=[\\s/>])`, 'gi');
      close.lastIndex = tag.lastIndex;
      if (!close.exec(page)) return;
      tag.lastIndex = close.lastIndex - name.length - 2;
    }
  }
}

/** @param {string} text */
function unescaped(text) {
  return text.replace(/&(?:#(\d{1,7})|#x([0-9a-f]{1,6})|([a-z]+));/gi, (all, decimal, hex, name) => {
    const code = decimal ? Number(decimal) : parseInt(hex, 16);
    if (name) return REFERENCES.get(name) ?? all;
    return code > 0 && code < 0x110000 ? String.fromCodePoint(code) : '\ufffd';
  });
}

/** What a worker knows about the hosts that it visits. */
class Hosts {
  /** @type {Map<string, {robots: Robots | string, delay: number}>} */
  #sites = new Map();
  /** When each host, on whatever port, may be asked again. @type {Map<string, number>} */
  #next = new Map();

  /** @param {{agent: string, delay: number, largest: number}} settings */
  constructor(settings) {
    this.settings = settings;
  }

  /** When a URL may be fetched, like Date.now(). If its site is new, requests its robots.txt. */
  async readyAt(/** @type {string} */ url) {
    const { refusal } = await this.#siteOf(url);
    return refusal === undefined ? this.#next.get(new URL(url).hostname) ?? 0 : 0;
  }

  /** Fetches a URL if its host allows it. */
  async visit(/** @type {string} */ url) {
    const { agent, largest } = this.settings;
    const { delay, refusal } = await this.#siteOf(url);
    return refusal === undefined
      ? this.#get(new URL(url).hostname, delay, url, agent, largest) : replyOf(refusal);
  }

  /** The delay of a URL's site, and the URL's status if it must not be fetched. */
  async #siteOf(/** @type {string} */ url) {
    const { origin, hostname } = new URL(url);
    let site = this.#sites.get(origin);
    if (!site) {
      const robots = await this.#robotsOf(origin, hostname);
      const wanted = typeof robots === 'string' ? 0 : robots.delay;
      site = { robots, delay: Math.max(this.settings.delay, wanted) };
      this.#sites.set(origin, site);
    }
    const { robots, delay } = site;
    if (typeof robots === 'string') return { delay, refusal: robots };
    // The delay may not be a number: then the site is skipped, too.
    return { delay, refusal: delay <= DAY && robots.allows(url) ? undefined : 'robots' };
  }

  /** The robots.txt of a site; or if it cannot be read, the status of the site's URLs. */
  async #robotsOf(/** @type {string} */ origin, /** @type {string} */ hostname) {
    const { agent, delay } = this.settings;
    let status = '';
    for (let attempt = 0; attempt < 3; attempt += 1) {
      let url = `${origin}/robots.txt`;
      status = 'no-robots';
      for (let hop = 0; hop < 6; hop += 1) {
        const reply = await this.#get(hostname, delay, url, agent, ROBOTS_BYTES, true);
        if (reply.target === undefined) {
          if (/^[2-4]/.test(reply.status)) return new Robots(reply.text, agent);
          if (reply.status === 'failed' && hop === 0) status = 'failed';
          break;
        }
        url = joined(url, reply.target);
      }
    }
    return status;
  }

  /**
   * Fetches a URL after the delay since the last request to its host.
   *
   * @param {string} hostname the host whose delay it is: not that of the URL after a redirect
   * @param {number} delay
   * @param {Parameters<typeof get>} request
   */
  async #get(hostname, delay, ...request) {
    await sleep(Math.max(0, (this.#next.get(hostname) ?? 0) - Date.now()));
    try {
      return await get(...request);
    } finally {
      this.#next.set(hostname, Date.now() + 1000 * delay);
    }
  }
}

/** A worker's search for a URL whose host need not wait. The others are put back. */
class Search {
  #urls = new Set();
  /** When each host may be visited. @type {Map<string, number>} */
  #hosts = new Map();
  #old = 0;

  /** Whether to wait with this URL: it was put back before, or no new hosts are found. */
  isOver(/** @type {string} */ url) {
    return this.#urls.has(url) || this.#old === OLD_HOSTS;
  }

  add(/** @type {string} */ url, /** @type {number} */ at) {
    const { hostname } = new URL(url);
    this.#old = this.#hosts.has(hostname) ? this.#old + 1 : 0;
    this.#hosts.set(hostname, at);
    this.#urls.add(url);
  }

  /** When the first host need not wait any more. */
  get end() { return Math.min(...this.#hosts.values()); }
}

/** Whether a URL was accepted into a queue since its worker last waited for that. */
export class Arrival {
  #has = false;
  #end = () => {};

  happen() {
    this.#has = true;
    this.#end();
  }

  /** Waits until it happens, or until a time like Date.now(). @param {number} end */
  async wait(end) {
    await new Promise((resolve) => {
      const timer = setTimeout(resolve, this.#has ? 0 : end - Date.now());
      this.#end = () => resolve(clearTimeout(timer));
    });
    this.#has = false;
  }
}

/** @param {string[]} words */
function settingsOf(words) {
  const text = /** @type {const} */ ({ type: 'string' });
  const { values, positionals: seeds } = parseArgs({
    args: words,
    allowPositionals: true,
    options: {
      workers: text,
      within: text,
      log: text,
      delay: text,
      largest: text,
      pages: text,
      agent: text,
      program: text,
    },
  });
  /** @param {'workers' | 'delay' | 'largest' | 'pages'} name @param {number} other */
  const number = (name, other) => {
    const value = Number(values[name] ?? other);
    if (!(value >= 0)) throw new RangeError(`--${name} requires a number`);
    return value;
  };
  if (!seeds.length) throw new RangeError('no SEED');
  const { within, log, program, agent = 'crawl_http' } = values;
  return {
    seeds,
    agent,
    pages: number('pages', 0),
    delay: number('delay', 1),
    largest: number('largest', 5_000_000),
    frontier: { workers: number('workers', 4), within, log, program },
  };
}

/** @param {ReturnType<typeof settingsOf>} settings */
async function crawl(settings) {
  const frontier = await Frontier.open(settings.frontier);
  let left = settings.pages || Infinity;
  let isStopped = false;
  const arrivals = Array.from({ length: frontier.workers }, () => new Arrival());
  const stop = async () => {
    isStopped = true;
    for (const arrival of arrivals) arrival.happen();
    await frontier.close();
  };
  process.once('SIGINT', stop);
  const work = async (/** @type {number} */ queue) => {
    const hosts = new Hosts(settings);
    const arrival = arrivals[queue];
    let search = new Search();
    /** @param {string} url */
    const hasToWait = async (url) => await hosts.readyAt(url) > Date.now() + 1;
    for await (const url of frontier.queue(queue)) {
      if (search.isOver(url) && await hasToWait(url)) {
        search.add(url, await hosts.readyAt(url));
        await arrival.wait(search.end);
        search = new Search();
      }
      if (isStopped) return;
      if (await hasToWait(url)) {
        search.add(url, await hosts.readyAt(url));
        await frontier.later(queue);
        continue;
      }
      search = new Search();
      const { status, target, text } = await hosts.visit(url);
      const { base, texts } = linksOf(url, text);
      const offers = await frontier.links(base, target === undefined ? texts : [target]);
      for (const offer of offers) if (offer.accepted) arrivals[offer.queue].happen();
      console.log(`${status} ${offers.filter(({ accepted }) => accepted).length} ${url}`);
      left -= 1;
      if (left === 0) {
        await frontier.done(queue);
        await stop();
      }
      if (isStopped) return;
    }
  };
  try {
    const offers = await frontier.offerAll(settings.seeds);
    offers.forEach((offer, i) => {
      // A crawl that resumes has seen its seeds, or is over.
      if (!offer.accepted && !['seen', 'refused full', 'refused closed'].includes(offer.reason)) {
        console.error(`crawl_http: ${settings.seeds[i]}: ${offer.reason}`);
      }
    });
    await frontier.endSeeds();
    await Promise.all(Array.from({ length: frontier.workers }, (_, queue) => work(queue)));
  } catch (error) {
    if (!isStopped) throw error;
  } finally {
    await frontier.close();
  }
  return isStopped ? 2 : 0;
}

/** @param {string[]} words */
async function main(words) {
  let settings;
  try {
    settings = settingsOf(words);
  } catch (error) {
    console.error(`crawl_http: ${error instanceof Error ? error.message : error}`);
    return 3;
  }
  try {
    return await crawl(settings);
  } catch (error) {
    console.error(`crawl_http: ${error instanceof FrontierError ? error.message : error}`);
    return 1;
  }
}

if (process.argv[1] && import.meta.url === pathToFileURL(realpathSync(process.argv[1])).href) {
  process.exit(await main(process.argv.slice(2)));
}
