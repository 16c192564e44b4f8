#!/usr/bin/env node
/** A crawler over the Node client, for the suite: crawl_node.mjs WORKERS LOG SEED.. */

import http from 'node:http';

import { Frontier } from '../../node/mercator_frontier.mjs';

/** The status, the target of a redirect, and the lines of a page. */
function get(url) {
  return new Promise((resolve) => {
    const fail = () => resolve({ lines: [] });
    const request = http.get(url, { agent: false, timeout: 10_000 }, async (response) => {
      let body = '';
      try {
        for await (const text of response.setEncoding('utf8')) body += text;
      } catch {
        return fail();
      }
      const lines = response.statusCode === 200 ? body.split('\n').slice(0, -1) : [];
      return resolve({ status: response.statusCode, target: response.headers.location, lines });
    });
    request.on('error', fail).on('timeout', () => request.destroy());
  });
}

function print(name, { accepted, done, inProgress, waiting, putBack, seen }) {
  console.log('stats', name, accepted, done, inProgress, waiting, putBack, seen);
}

async function visit(frontier, url, queue) {
  if (process.env.STATS) {
    print(queue, await frontier.stats(queue));
    print('all', await frontier.stats());
  }
  const { status, target, lines } = await get(url);
  if (status === 503) return frontier.later(queue);
  let base = url;
  const texts = target === undefined ? [] : [target];
  for (const line of lines) {
    if (line.startsWith('base ')) base = line.slice(5);
    else texts.push(line.replaceAll('\\n', '\n'));
  }
  return frontier.links(base, texts);
}

const [workers, log, ...seeds] = process.argv.slice(2);
try {
  const options = { workers: Number(workers), log: log === '-' ? undefined : log };
  const frontier = await Frontier.open(options);
  try {
    await frontier.offerAll(seeds);
    await frontier.endSeeds();
    await frontier.run((url, queue) => visit(frontier, url, queue));
  } finally {
    await frontier.close();
  }
} catch (error) {
  console.error(`crawl_node: ${error.message}`);
  process.exit(1);
}
