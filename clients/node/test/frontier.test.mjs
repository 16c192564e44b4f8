/**
 * Tests of the client over the program that MERCATOR names. Run them with
 * `MERCATOR=.. node --test clients/node/test/`; without MERCATOR they are skipped.
 */

import assert from 'node:assert/strict';
import { spawn } from 'node:child_process';
import fs from 'node:fs';
import os from 'node:os';
import path from 'node:path';
import test from 'node:test';

import {
  Frontier, FrontierEnded, LogInUse, NoSuchQueue, NothingTaken, ProgramMissing, QueueBusy,
  UnknownAnswer,
} from '../mercator_frontier.mjs';

const options = {
  skip: process.env.MERCATOR ? false : 'MERCATOR does not name the program',
  timeout: 300_000,
};

/** Runs a test with a frontier, and closes it. */
function withFrontier(name, settings, run) {
  test(name, options, async () => {
    const frontier = await Frontier.open(settings);
    try {
      await run(frontier);
    } finally {
      await frontier.close();
    }
  });
}

/** A program that stands in for `mercator`: a shell script. */
function script(folder, text) {
  const file = path.join(folder, 'mercator.sh');
  fs.writeFileSync(file, `#!/bin/sh\n${text}\n`, { mode: 0o755 });
  return file;
}

function inFolder(name, run) {
  test(name, options, async () => {
    const folder = fs.mkdtempSync(path.join(os.tmpdir(), 'node-client-'));
    try {
      await run(folder);
    } finally {
      fs.rmSync(folder, { recursive: true });
    }
  });
}

const refused = (reason) => ({ accepted: false, reason });
const accepted = (queue, number) => ({ accepted: true, queue, number });

withFrontier('every answer', { workers: 1, within: 'test', maxPending: 3 }, async (frontier) => {
  assert.deepEqual(await frontier.offer('http://A.test:80/x/../y#f'), accepted(0, 0));
  assert.deepEqual(await frontier.offerAll([
    'http://a.test/y', 'http://b.other/', 'mailto:a@b.test', 'nowhere',
    `http://a.test/${'x'.repeat(9000)}`, 'http://a.te\nst/\r\nnext 0\n', 'http://a.test/full',
  ]), [
    refused('seen'), refused('filtered'), refused('not http or https'), refused('not a URL'),
    refused('line too long'), accepted(0, 1), refused('refused full'),
  ]);
  assert.equal(frontier.kept, 1);
  assert.deepEqual(await frontier.offerAll([]), []);
  assert.equal(await frontier.take(0), 'http://a.test/y');
  assert.equal(await frontier.again(0), 'http://a.test/y');
  await assert.rejects(frontier.take(0), QueueBusy);
  await assert.rejects(frontier.take(1), NoSuchQueue);
  await assert.rejects(frontier.done(-1), NoSuchQueue);
  await assert.rejects(frontier.again(0.5), NoSuchQueue);
  assert.equal(await frontier.done(0), 2);
  await assert.rejects(frontier.done(0), NothingTaken);
  assert.equal(frontier.kept, 0);
  assert.equal(await frontier.take(0), 'http://a.test/next%200');
  assert.equal(await frontier.endSeeds(), 2);
  assert.equal(await frontier.endSeeds(), null);
  assert.deepEqual(await frontier.links(' http://a.test/d e/f\t?q ', [
    '../y', 'f g', '', 'mailto:x', '//b.other',
  ]), [
    refused('seen'), accepted(0, 3), refused('refused full'), refused('not http or https'),
    refused('filtered'),
  ]);
  const urls = [];
  await frontier.done(0);
  await frontier.run((url) => { urls.push(url); });
  assert.deepEqual(urls, [
    'http://a.test/full', 'http://a.test/d%20e/f%20g', 'http://a.test/d%20e/f?q',
  ]);
  assert.equal(await frontier.take(0), null);
  assert.deepEqual(await frontier.offer('http://a.test/late'), refused('refused closed'));
});

withFrontier('a URL that is put back', { workers: 1, maxPending: 4 }, async (frontier) => {
  const urls = ['http://a.test/1', 'http://b.test/2', 'http://c.test/3', 'http://d.test/4'];
  await assert.rejects(frontier.later(0), NothingTaken);
  await assert.rejects(frontier.later(1), NoSuchQueue);
  await frontier.offerAll(urls);
  assert.equal(frontier.kept, 1);
  // It is taken after those that wait. No room is needed, and none is made.
  for (const index of [0, 1, 2, 0]) {
    assert.equal(await frontier.take(0), urls[index]);
    assert.equal(await frontier.later(0), 4);
  }
  assert.equal(frontier.kept, 1);
  await frontier.endSeeds();
  assert.equal(frontier.kept, 0);
  const taken = [];
  await frontier.run(async (url, queue) => {
    taken.push(url);
    if (taken.length <= 2) await frontier.later(queue);
  });
  assert.deepEqual(taken, [1, 2, 0, 3, 1, 2].map((index) => urls[index]));
  await assert.rejects(frontier.later(0), NothingTaken);
});

withFrontier('a URL that is put back, and the only one', { workers: 1 }, async (frontier) => {
  await frontier.offer('http://a.test/');
  await frontier.endSeeds();
  let count = 0;
  for await (const url of frontier.queue(0)) {
    assert.equal(url, 'http://a.test/');
    count += 1;
    if (count < 5) await frontier.later(0);
  }
  assert.equal(count, 5);
  // It was not put back the last time.
  await assert.rejects(frontier.done(0), NothingTaken);
});

withFrontier('the numbers of URLs', { workers: 2 }, async (frontier) => {
  const none = { accepted: 0, done: 0, inProgress: 0, waiting: 0, putBack: 0, seen: 0 };
  assert.deepEqual(await frontier.stats(), none);
  const urls = ['http://a.test/1', 'http://a.test/2', 'http://a.test/3', 'http://b.test/'];
  const offers = await frontier.offerAll([...urls, ...urls, 'mailto:x']);
  const [queue, other] = [offers[0].queue, offers[3].queue];
  assert.notEqual(queue, other);
  await frontier.take(queue);
  await frontier.later(queue);
  await frontier.take(queue);
  await frontier.done(queue);
  await frontier.take(other);
  const numbers = { accepted: 3, done: 1, inProgress: 0, waiting: 2, putBack: 1, seen: 3 };
  assert.deepEqual(await frontier.stats(queue), numbers);
  assert.deepEqual(await frontier.stats(other), { ...none, accepted: 1, inProgress: 1, seen: 1 });
  assert.deepEqual(await frontier.stats(), { ...numbers, accepted: 4, inProgress: 1, seen: 4 });
  for (const wrong of [-1, 2, 0.5, null]) await assert.rejects(frontier.stats(wrong), NoSuchQueue);
});

withFrontier('no wake-up is lost', { workers: 2 }, async (frontier) => {
  // All requests are in the pipe before the first answer is read.
  const taken = [frontier.take(0), frontier.take(1)];
  const offered = frontier.offerAll(['http://a.test/', 'http://b.test/']);
  const seeds = frontier.endSeeds();
  assert.deepEqual((await Promise.all(taken)).sort(), ['http://a.test/', 'http://b.test/']);
  assert.deepEqual((await offered).map((offer) => offer.accepted), [true, true]);
  assert.equal(await seeds, 2);
  // The wait for the end, too: both queues are woken by the last `done`.
  const ends = [
    frontier.done(0), frontier.take(0), frontier.done(1), frontier.take(1),
  ];
  assert.deepEqual((await Promise.all(ends)).slice(1), [null, 0, null]);
});

withFrontier('the program is killed', { workers: 2 }, async (frontier) => {
  const waiting = frontier.take(0);
  const pid = childOf(process.pid);
  process.kill(pid, 'SIGSTOP');
  // More than a pipe holds, so that a write is under way when the program dies.
  const offers = Promise.all(Array.from({ length: 200 }, (_, i) => frontier.offer(`http://a.test/${'x'.repeat(3000)}${i}`)));
  process.kill(pid, 'SIGKILL');
  await assert.rejects(offers, (error) => error instanceof FrontierEnded && error.signal === 'SIGKILL');
  await assert.rejects(waiting, FrontierEnded);
  await assert.rejects(frontier.offer('http://a.test/'), FrontierEnded);
  await assert.rejects(frontier.run(() => {}), FrontierEnded);
});

function childOf(pid) {
  const children = fs.readFileSync(`/proc/${pid}/task/${pid}/children`, 'utf8');
  return Number(children.trim().split(' ')[0]);
}

withFrontier('a frontier that is closed', { workers: 2 }, async (frontier) => {
  const waiting = assert.rejects(frontier.take(0), FrontierEnded);
  await frontier.close();
  await waiting;
  await assert.rejects(frontier.take(0), FrontierEnded);
  await frontier.close();
});

test('a program that cannot be started', options, async () => {
  await assert.rejects(Frontier.open({ program: '/no/such/program' }), ProgramMissing);
  await assert.rejects(Frontier.open({ workers: 513 }), (error) => error instanceof FrontierEnded
    && error.status === 3 && error.stderr.includes('513') && error.message.includes('513'));
});

inFolder('programs that answer wrongly', async (folder) => {
  const wrong = [
    'while read -r line; do echo perhaps; done',
    'while read -r line; do echo refused nothing; echo seen; done',
    'read -r line; echo refused nothing; while read -r line; do echo accepted 7; done',
  ];
  for (const text of wrong) {
    const frontier = await Frontier.open({ workers: 1, program: script(folder, text) })
      .catch((error) => assert.ok(error instanceof UnknownAnswer, error));
    if (frontier) {
      const offer = frontier.offer('http://a.test/');
      await assert.rejects(frontier.take(0), UnknownAnswer);
      await offer.catch(() => {});
      await frontier.close();
    }
  }
  const text = 'read -r line; echo refused nothing; read -r line; echo stats accepted 1 done 2';
  const frontier = await Frontier.open({ workers: 1, program: script(folder, text) });
  await assert.rejects(frontier.stats(), UnknownAnswer);
  await frontier.close();
});

inFolder('EPIPE: a program that closes its input before it exits', async (folder) => {
  const text = 'read -r line; echo refused nothing; exec 0<&-; sleep 0.5; echo full >&2; exit 7';
  const frontier = await Frontier.open({ workers: 1, program: script(folder, text) });
  await new Promise((resolve) => { setTimeout(resolve, 200); });
  const isEnd = (error) => error instanceof FrontierEnded && error.status === 7 && error.stderr === 'full';
  await Promise.all([
    assert.rejects(frontier.offer('http://a.test/'), isEnd), assert.rejects(frontier.take(0), isEnd),
  ]);
  await frontier.close();
});

inFolder('a program that prints much on standard error', async (folder) => {
  const program = script(folder, 'yes warning | head -c 300000 >&2; exec "$MERCATOR" "$@"');
  const frontier = await Frontier.open({ workers: 1, program });
  assert.deepEqual(await frontier.offer('http://a.test/'), accepted(0, 0));
  await frontier.close();
});

withFrontier('a page with many links', { workers: 3 }, async (frontier) => {
  const count = 5_000;
  const answers = await frontier.links('http://a.test/', Array.from({ length: count }, (_, i) => `//h${i % 50}.test/${i}`));
  assert.equal(answers.filter((offer) => offer.accepted).length, count);
  // Each of these answers is longer than its request.
  const long = await frontier.offerAll(Array(count).fill('a:'));
  assert.deepEqual(new Set(long.map((offer) => offer.reason)), new Set(['not http or https']));
});

withFrontier('offers that nobody awaits one by one', { workers: 1 }, async (frontier) => {
  const offers = Array.from({ length: 10_000 }, (_, i) => frontier.offer(`http://a.test/${i}`));
  assert.ok((await Promise.all(offers)).every((offer, i) => offer.number === i));
});

test('no URL is lost for lack of room', options, async (context) => {
  for (const maxPending of [1, 2, 3, 10]) {
    for (const workers of [1, 2, 7]) {
      const frontier = await Frontier.open({ workers, maxPending });
      const urls = [];
      await frontier.offerAll(['http://h0.test/', 'http://h1.test/']);
      await frontier.endSeeds();
      // A tree of 3 + 9 + 27 + 81 pages below each seed, on seven hosts.
      await frontier.run(async (url) => {
        urls.push(url);
        const path = new URL(url).pathname;
        const children = [0, 1, 2].map((i) => `//h${(path.length + i) % 7}.test${path}${i}`);
        await frontier.links(url, path.length < 5 ? children : []);
      });
      assert.equal(frontier.kept, 0);
      await frontier.close();
      assert.equal(new Set(urls).size, urls.length);
      const reached = new Set(['http://h0.test/', 'http://h1.test/']);
      for (const url of reached) {
        const path = new URL(url).pathname;
        if (path.length < 5) for (const i of [0, 1, 2]) reached.add(`http://h${(path.length + i) % 7}.test${path}${i}`);
      }
      assert.deepEqual(new Set(urls), reached, `${maxPending} and ${workers}`);
      context.diagnostic(`--max-pending ${maxPending}, ${workers} workers: ${urls.length} URLs`);
    }
  }
});

withFrontier('a handler that throws', { workers: 2 }, async (frontier) => {
  await frontier.offer('http://a.test/');
  await assert.rejects(frontier.run(() => { throw new RangeError('mine'); }), RangeError);
  await assert.rejects(frontier.offer('http://b.test/'), FrontierEnded);
});

inFolder('a log: resumed, in use, and not a log', async (folder) => {
  const log = path.join(folder, 'crawl.log');
  const first = await Frontier.open({ workers: 1, log, sync: true });
  await first.offerAll(['http://a.test/', 'http://a.test/2', 'http://a.test/3']);
  assert.equal(await first.take(0), 'http://a.test/');
  const second = Frontier.open({ workers: 1, log });
  await new Promise((resolve) => { setTimeout(resolve, 300); });
  await first.close();
  const frontier = await second;
  assert.equal(await frontier.again(0), 'http://a.test/');
  const urls = [];
  for await (const url of frontier.queue(0)) {
    urls.push(url);
    if (urls.length === 1) await frontier.later(0);
    if (urls.length === 2) break; // so that it stays in progress
  }
  await frontier.close();
  const third = await Frontier.open({ workers: 1, log });
  await third.endSeeds();
  for await (const url of third.queue(0)) urls.push(url);
  assert.deepEqual(urls, [
    'http://a.test/', 'http://a.test/2', 'http://a.test/2', 'http://a.test/3', 'http://a.test/',
  ]);
  await assert.rejects(Frontier.open({ workers: 1, log }), LogInUse);
  await third.close();
  await assert.rejects(Frontier.open({ workers: 2, log }), (error) => error instanceof FrontierEnded && error.status === 1);
  await assert.rejects(Frontier.open({ log: path.join(folder, 'none', 'log') }), (error) => error instanceof FrontierEnded && error.status === 1);
});

inFolder('names that begin like options', async (folder) => {
  const before = process.cwd();
  process.chdir(folder);
  try {
    for (const offer of [accepted(0, 0), refused('seen')]) {
      const frontier = await Frontier.open({ workers: 1, within: '-a.test', log: '--x' });
      assert.deepEqual(await frontier.offerAll(['http://b.-a.test/', 'http://a.test/']), [offer, refused('filtered')]);
      await frontier.close();
    }
  } finally {
    process.chdir(before);
  }
});

test('Ctrl-C does not reach the program', options, async () => {
  const code = `import { Frontier } from ${JSON.stringify(new URL('../mercator_frontier.mjs', import.meta.url).href)};
    const frontier = await Frontier.open({ workers: 1 });
    process.on('SIGINT', async () => {
      console.log((await frontier.offer('http://a.test/')).accepted);
      await frontier.close();
    });
    console.log('ready');`;
  const child = spawn(process.execPath, ['--input-type=module', '-e', code], { detached: true });
  let printed = '';
  for await (const text of child.stdout.setEncoding('utf8')) {
    printed += text;
    if (text === 'ready\n') process.kill(-child.pid, 'SIGINT');
  }
  assert.equal(printed, 'ready\ntrue\n');
});
