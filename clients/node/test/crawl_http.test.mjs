/**
 * Tests of crawl_http.mjs, over HTTP on 127.0.0.0/8 and the program that MERCATOR names. Without
 * MERCATOR those that need it are skipped.
 */

import assert from 'node:assert/strict';
import { spawn } from 'node:child_process';
import fs from 'node:fs';
import http from 'node:http';
import os from 'node:os';
import path from 'node:path';
import test from 'node:test';
import { setTimeout as sleep } from 'node:timers/promises';
import { fileURLToPath } from 'node:url';

import { Arrival, Robots, linksOf } from '../crawl_http.mjs';
import { Frontier } from '../mercator_frontier.mjs';

const CRAWLER = fileURLToPath(new URL('../crawl_http.mjs', import.meta.url));
const KILLS = Number(process.env.KILLS ?? 25);
const options = {
  skip: process.env.MERCATOR ? false : 'MERCATOR does not name the program',
  timeout: 900_000,
};

/** Random numbers below a bound, the same in each run. */
function randomOf(seed) {
  let state = seed;
  return (bound) => {
    state = (Math.imul(state, 1_664_525) + 1_013_904_223) >>> 0;
    return Math.floor((state / 2 ** 32) * bound);
  };
}

/** Servers on 127.0.0.1 and the following addresses, all on one port. */
async function serve(hosts, handler) {
  const servers = [];
  let port = 0;
  for (let host = 1; host <= hosts; host += 1) {
    const server = http.createServer((request, response) => handler(request, response, host));
    await new Promise((resolve, reject) => {
      server.once('error', reject).listen(port, `127.0.0.${host}`, resolve);
    });
    server.unref(); // a test that fails must not wait for it
    port = server.address().port;
    servers.push(server);
  }
  const close = () => servers.forEach((server) => { server.closeAllConnections?.(); server.close(); });
  return { port, close };
}

/** Runs the crawler; `whileRunning` gets the process. */
async function crawl(words, whileRunning = async () => {}) {
  const child = spawn(process.execPath, [CRAWLER, ...words]);
  let [printed, errors] = ['', ''];
  child.stdout.setEncoding('utf8').on('data', (text) => { printed += text; });
  child.stderr.setEncoding('utf8').on('data', (text) => { errors += text; });
  const ended = new Promise((resolve) => {
    child.on('close', (status, signal) => resolve({ status, signal }));
  });
  await whileRunning(child, ended);
  const lines = () => printed.split('\n').slice(0, -1).map((line) => line.split(' '));
  return { ...await ended, errors, rows: lines().map(([status, , url]) => [url, status]) };
}

/** A web on some hosts: pages, redirects, 404s, and links in many spellings. */
function generatedWeb(random, hosts, count, port) {
  const place = (page) => ({ host: (page % hosts) + 1, path: `/d/${page}` });
  const urlOf = (page) => `http://127.0.0.${place(page).host}:${port}${place(page).path}`;
  const spelled = (from, to) => {
    const { host, path: target } = place(to);
    const forms = [
      urlOf(to), `HTTP://127.0.0.${host}:${port}/x/..${target}#part`, `//127.0.0.${host}:${port}/./${target.slice(1)}`,
    ];
    if (host === place(from).host) forms.push(target, `../d/${to}#f`, ` ${to}\n`, `./${to}`);
    return forms[random(forms.length)];
  };
  const pages = Array.from({ length: count }, (_, page) => {
    const targets = Array.from({ length: 1 + random(5) }, () => random(count));
    return {
      kind: page === 0 ? 'page' : ['page', 'page', 'page', 'page', 'redirect', 'missing'][random(6)],
      targets,
      texts: [...targets.map((target) => spelled(page, target)), 'mailto:x@y.test', 'http://['],
    };
  });
  // A search of its own.
  const reached = new Set([0]);
  for (const page of reached) {
    const { kind, targets } = pages[page];
    for (const target of { page: targets, redirect: targets.slice(0, 1), missing: [] }[kind]) reached.add(target);
  }
  return { pages, reached: new Set([...reached].map(urlOf)), first: urlOf(0) };
}

test(`killed ${KILLS} times`, options, async (context) => {
  const [hosts, workers, random] = [5, 4, randomOf(7)];
  let web;
  // How many times each run requested each URL. A run has its number as agent, since the requests
  // of a crawler that was killed may arrive while the next run is under way.
  const runs = [];
  const { port, close } = await serve(hosts, (request, response, host) => {
    const page = web.pages[Number(/^\/d\/(\d+)$/.exec(request.url)?.[1])];
    if (!page) return response.writeHead(404).end();
    const url = `http://127.0.0.${host}:${port}${request.url}`;
    const run = runs[Number(request.headers['user-agent'])];
    run.set(url, (run.get(url) ?? 0) + 1);
    if (page.kind === 'missing') return response.writeHead(404).end();
    if (page.kind === 'redirect') return response.writeHead(302, { location: page.texts[0].trim() }).end();
    const body = page.texts.map((text) => `<a href="${text}">`).join('\n');
    return setTimeout(() => response.writeHead(200, { 'content-type': 'text/html' }).end(body), 5 + random(10));
  });
  web = generatedWeb(random, hosts, 600, port);
  const folder = fs.mkdtempSync(path.join(os.tmpdir(), 'node-crawl-'));
  try {
    const words = ['--delay', '0', '--workers', workers, '--log', path.join(folder, 'log')];
    let last = { status: null };
    while (last.status === null) {
      const run = new Map();
      const goal = 1 + random(12);
      const isKilled = runs.push(run) <= KILLS;
      last = await crawl([...words, '--agent', runs.length - 1, web.first], async (child, ended) => {
        let hasEnded = !isKilled;
        ended.then(() => { hasEnded = true; });
        while (!hasEnded && run.size < goal) await sleep(1);
        await sleep(random(10));
        if (!hasEnded) child.kill('SIGKILL');
      });
    }
    assert.deepEqual([last.status, last.errors], [0, '']);
    assert.equal(runs.length, KILLS + 1, 'the web is too small for so many kills');
    const all = new Set();
    let again = 0;
    for (const run of runs) {
      assert.ok([...run.values()].every((times) => times === 1), 'a URL was fetched twice in one run');
      const repeated = [...run.keys()].filter((url) => all.has(url)).length;
      assert.ok(repeated <= workers, `${repeated} URLs were fetched again after a kill`);
      again += repeated;
      for (const url of run.keys()) all.add(url);
    }
    assert.deepEqual(all, web.reached);
    context.diagnostic(`${KILLS} kills, ${all.size} URLs, ${again} of them fetched again`);
  } finally {
    close();
    fs.rmSync(folder, { recursive: true });
  }
});

test('robots.txt, the delay, redirects and a page without an end', options, async () => {
  const asked = [];
  const moved = { '/d/moved': '../to?q#f', '/to?q': Buffer.from('to/ü').toString('latin1'), '/to/%C3%BC': 'é' };
  const { port, close } = await serve(1, (request, response) => {
    asked.push([Date.now(), request.url, request.headers['user-agent']]);
    if (request.url === '/robots.txt') return response.end('User-agent: *\nDisallow: /\n\nUser-agent: Bell\nDisallow: /private\n');
    if (request.url === '/') {
      response.setHeader('content-type', 'text/html; charset=utf-8');
      return response.end('<a href=/private/x>x</a><A HREF=\'moved\'>m</A><a href=endless>e</a><base href=/d/><a href=y&amp;z>y</a>');
    }
    if (request.url in moved) return response.writeHead(301, { location: moved[request.url] }).end();
    if (request.url === '/d/endless') {
      response.setHeader('content-type', 'text/html');
      const more = () => { while (!response.destroyed && response.write('<a href=/n>n</a>'.padEnd(10_000))); };
      response.on('drain', more);
      return more();
    }
    return response.writeHead(404).end();
  });
  const site = `http://127.0.0.1:${port}`;
  const { status, errors, rows } = await crawl(['--delay', '0.2', '--largest', '100000', '--agent', 'bell/1.0', `${site}/`]);
  close();
  const wanted = {
    '/': '200', '/private/x': 'robots', '/d/moved': '301', '/d/endless': '200', '/d/y&z': '404', '/n': '404',
    '/to?q': '301', '/to/%C3%BC': '301', '/to/%C3%A9': '404',
  };
  assert.deepEqual([status, errors], [0, '']);
  assert.deepEqual(Object.fromEntries(rows.map(([url, word]) => [url.slice(site.length), word])), wanted);
  const fetched = Object.keys(wanted).filter((url) => url !== '/private/x');
  assert.deepEqual(asked.map(([, url]) => url).sort(), ['/robots.txt', ...fetched].sort());
  assert.ok(asked.every(([, , agent]) => agent === 'bell/1.0'));
  asked.slice(1).forEach(([time], i) => assert.ok(time - asked[i][0] >= 190, 'the delay'));
});

test('one worker, many hosts, and the delay of each', options, async () => {
  const [hosts, pages, delay] = [8, 4, 0.3];
  const asked = new Map(Array.from({ length: hosts }, (_, i) => [i + 1, []]));
  const { port, close } = await serve(hosts, (request, response, host) => {
    asked.get(host).push(Date.now());
    if (request.url === '/robots.txt') return response.writeHead(404).end();
    const urls = [...asked.keys()].flatMap((other) => Array.from({ length: pages }, (_, page) => `http://127.0.0.${other}:${port}/${page}`));
    return response.setHeader('content-type', 'text/html').end(request.url === '/' ? urls.map((url) => `<a href=${url}>`).join('') : '');
  });
  const { status, errors, rows } = await crawl(['--delay', delay, '--workers', 1, `http://127.0.0.1:${port}/`]);
  close();
  assert.deepEqual([status, errors, rows.length, new Set(rows.map(([url]) => url)).size], [0, '', 33, 33]);
  for (const times of asked.values()) {
    times.slice(1).forEach((time, i) => assert.ok(time - times[i] >= 1000 * delay - 10, 'the delay'));
  }
  const all = [...asked.values()].flat();
  // Host by host they would take 10 seconds.
  assert.ok(Math.max(...all) - Math.min(...all) < 6000);
});

test('hosts that are found while all of a queue have to wait', options, async () => {
  const hosts = 8;
  let slow; // the host that waits for an hour
  const { port, close } = await serve(hosts, async (request, response, host) => {
    const isSlow = `http://127.0.0.${host}:${port}/` === slow;
    if (request.url === '/robots.txt') return response.end(isSlow ? 'User-agent: *\nCrawl-delay: 3600' : '');
    response.setHeader('content-type', 'text/html');
    if (request.url !== '/links') return response.end();
    await sleep(1000);
    const links = Array.from({ length: hosts }, (_, i) => `<a href=http://127.0.0.${i + 1}:${port}/new>`);
    return response.end(links.join(''));
  });
  const frontier = await Frontier.open({ workers: 2 });
  await frontier.offerAll(Array.from({ length: hosts }, (_, i) => `http://127.0.0.${i + 1}:${port}/`));
  slow = await frontier.take(0);
  const other = await frontier.take(1);
  await frontier.close();
  // All but the second and third URL of the slow host.
  const pages = 1 + 1 + hosts - 1;
  const begun = Date.now();
  const { status, errors, rows } = await crawl(['--workers', 2, '--delay', 0, '--pages', pages, slow, `${slow}2`, `${other}links`]);
  close();
  assert.deepEqual([status, errors, rows.length], [2, '', pages]);
  assert.ok(Date.now() - begun < 60_000);
});

test('an arrival before the wait for it', { timeout: 10_000 }, async () => {
  const arrival = new Arrival();
  arrival.happen();
  await arrival.wait(Date.now() + 3_600_000);
  const begun = Date.now();
  await arrival.wait(begun + 100);
  assert.ok(Date.now() - begun >= 95);
});

test('a robots.txt that fails, a host that is down, --pages', options, async () => {
  let attempts = 0;
  const { port, close } = await serve(3, (request, response, host) => {
    if (request.url !== '/robots.txt') return response.end();
    if (host === 1) return response.writeHead((attempts += 1) < 3 ? 503 : 404).end();
    return response.writeHead(host === 2 ? 500 : 404).end();
  });
  const urls = [1, 2, 3].map((host) => `http://127.0.0.${host}:${port}/`);
  const { status, rows } = await crawl(['--delay', '0', ...urls, 'http://127.0.0.4:1/']);
  assert.equal(status, 0);
  assert.deepEqual(new Map(rows), new Map([
    [urls[0], '200'], [urls[1], 'no-robots'], [urls[2], '200'], ['http://127.0.0.4:1/', 'failed'],
  ]));
  const one = await crawl(['--delay', '0', '--workers', '1', '--pages', '2', ...urls]);
  assert.deepEqual([one.status, one.rows.length], [2, 2]);
  close();
});

test('command lines and Ctrl-C', options, async () => {
  for (const words of [[], ['--workers', 'x', 'http://a.test/'], ['--wat', 'http://a.test/']]) {
    const { status, errors } = await crawl(words);
    assert.deepEqual([status, errors.startsWith('crawl_http: ')], [3, true]);
  }
  let asked;
  const isAsked = new Promise((resolve) => { asked = resolve; });
  const { port, close } = await serve(1, () => asked()); // it never responds
  const { status, errors } = await crawl([`http://127.0.0.1:${port}/`], async (child) => {
    await isAsked;
    child.kill('SIGINT');
  });
  close();
  assert.deepEqual([status, errors], [2, '']);
});

test('rules of robots.txt', () => {
  const robots = new Robots([
    '\ufeff# a comment', 'User-Agent: one', 'user-agent: Two # both', 'Disallow: /', '', 'allow: /$',
    'Allow: /p*/q$', 'Allow: /é', 'Crawl-delay: 3', 'Sitemap: x', 'User-agent: *', 'Disallow:',
  ].join('\r\n'), 'TWO/1.0 (x)');
  assert.equal(robots.delay, 3);
  const allowed = ['/', '/p/q', '/p/x/q', '/%C3%A9t%c3%a9', '/%c3%a9'];
  const forbidden = ['/x', '/p/q/', '/p/q?r', '/e'];
  for (const url of allowed) assert.ok(robots.allows(`http://a.test${url}`), url);
  for (const url of forbidden) assert.ok(!robots.allows(`http://a.test${url}`), url);
  assert.ok(new Robots('User-agent: *\nDisallow:', 'x').allows('http://a.test/'));
  assert.ok(!new Robots('User-agent: *\nDisallow: /a\nDisallow: *.pdf$', 'x').allows('http://a.test/b.pdf'));
  assert.ok(new Robots('User-agent: *\nDisallow: /a*b*b', 'x').allows('http://a.test/a-b'));
  // The number of steps is that of the path, for each rule.
  const slow = new Robots(`User-agent: *\nDisallow: ${'/*a'.repeat(500)}$`, 'x');
  assert.ok(slow.allows(`http://a.test/${'a/'.repeat(1000)}b`));
});

test('links of a page', () => {
  const links = (page) => linksOf('http://a.test/d/', page).texts;
  assert.deepEqual(links('<a href=1><A\nHREF = "2 3" x><a x href=\'4\'/><img src=5><link href=6><a href=7 href=8><a name=x>'), ['1', '2 3', '4', '5', '6', '7']);
  assert.deepEqual(links('<!-- <a href=1> --><a href=2><!--><a href=3><!doctype html><?x <a href=4>?></a href=5><a/href=6>'), ['2', '3', '6']);
  assert.deepEqual(links('<script src=1>"<a href=2>"</scripty></script ><a href=3><style><a href=4></STYLE><a href=5><title><a href=6>'), ['1', '3', '5']);
  assert.deepEqual(links('<a href="&amp;&#38;&#x26;&lt;&eacute;&#0;&#x110000;">'), ['&&&<&eacute;\ufffd\ufffd']);
  assert.deepEqual(links('<a href="1'), []);
  assert.deepEqual(links('<a href=1'), []);
  assert.deepEqual(links('a < b <a href=>'), ['']);
  assert.equal(linksOf('http://a.test/d/', '<base target=x><base href="../e/"><base href=f>').base, 'http://a.test/e/');
  assert.equal(linksOf('http://a.test/d/', '<base href="http://[">').base, 'http://a.test/d/');
  // Pages that would take hours if texts were read twice.
  for (const piece of ['<', '<a ', '<a b="', "<a b='", '<!--', '<script>', '<a b=', '</', '<a =', '<a b \n']) {
    linksOf('http://a.test/', piece.repeat(300_000));
  }
});
