// A contract: its interactions in words, its latest results, and what changed in it.
import { contractOf, matrixOf } from './ask.js';
import { listings } from './board.js';
import { el, form, heading, input, link, named, numbered, tag, version } from './nodes.js';
import { buildOf, go } from './place.js';

// Texts of JSON: each number is kept as it is written

const TOKENS = /"(?:[^"\\]|\\.)*"|-?\d+(?:\.\d+)?(?:[eE][+-]?\d+)?/g, NUMBER = '\uFFFE';

/** The value of a text of JSON, in which each number is a text with a sign of its own. */
const valueOf = text => JSON.parse(text.replace(TOKENS, it => (it[0] === '"' ? it : `"${NUMBER}${it}"`)));

/** A value in lines, its numbers as they were. */
const inLines = value => JSON.stringify(value, null, 2).replaceAll(new RegExp(`"${NUMBER}([^"]*)"`, 'g'), '$1');

const isObject = it => typeof it === 'object' && it !== null && !Array.isArray(it);
const said = it => (typeof it === 'string' ? it.replace(NUMBER, '') : inLines(it));

// Rules in words

const RULES = {
  type: it => 'is of the same type' + sizes(it),
  regex: it => `is a text that ${it.regex} fits`,
  equality: () => 'is equal',
  include: it => `is a text with ${said(it.value)} in it`,
  integer: () => 'is a whole number',
  decimal: () => 'is a number with a fraction',
  number: () => 'is a number',
  boolean: () => 'is true or false',
  null: () => 'is null',
  date: it => `is a date${it.date ? ` as ${it.date}` : ''}`,
  time: it => `is a time${it.time ? ` as ${it.time}` : ''}`,
  timestamp: it => `is a moment${it.timestamp ? ` as ${it.timestamp}` : ''}`,
};

function sizes({ min, max }) {
  const from = min === undefined ? '' : `, at least ${said(min)}`;
  return from + (max === undefined ? '' : `, at most ${said(max)}`);
}

/** Each rule of a part of a message, as a place and what it says. */
function rulesOf(rules, place = '') {
  if (!isObject(rules)) return [];
  if (Array.isArray(rules.matchers)) {
    const how = rules.combine === 'OR' ? ' or ' : ' and ';
    const words = it => (Object.hasOwn(RULES, it.match) ? RULES[it.match](it) : inLines(it));
    return [[place.trim() || 'the whole', rules.matchers.map(words).join(how)]];
  }
  return Object.entries(rules).flatMap(([name, each]) => rulesOf(each, `${place} ${name}`));
}

// One interaction

const part = (title, ...children) => el('div', { class: 'part' }, el('h4', {}, title), children);
const lines = value => el('pre', { tabindex: '0' }, inLines(value));

function fields(headers) {
  const each = Object.entries(headers ?? {}).map(([name, it]) => `${name}: ${said(it)}`);
  return each.length ? el('pre', { tabindex: '0' }, each.join('\n')) : '';
}

function ruled(message) {
  const rules = rulesOf(message.matchingRules);
  const item = ([place, words]) => el('li', {}, el('code', {}, place), ' ', words);
  return rules.length ? el('ul', { class: 'rules' }, rules.map(item)) : '';
}

const body = message => (message.body === undefined ? '' : lines(message.body));

function asked(request = {}) {
  const one = request.query ? el('pre', {}, said(request.query)) : '';
  const query = isObject(request.query) ? lines(request.query) : one;
  const first = el('p', {}, el('code', {}, `${said(request.method ?? 'GET')} ${said(request.path ?? '/')}`));
  return part('Request', first, query, fields(request.headers), body(request), ruled(request));
}

function replied(response = {}) {
  const status = response.status === undefined ? 'not said' : said(response.status);
  const first = el('p', {}, 'status ', el('code', {}, status));
  return part('Response', first, fields(response.headers), body(response), ruled(response));
}

function statesOf(it) {
  const params = each => (each.params ? [' ', el('code', {}, inLines(each.params))] : '');
  const states = (it.providerStates ?? []).map(each => [named(each.name), params(each)]);
  return states.length ? el('p', {}, 'Given: ', states.map((each, at) => [at ? '; ' : '', each])) : '';
}

function interaction(it, at) {
  const title = el('h3', {}, `${at + 1}. `, named(it.description));
  const parts = el('div', { class: 'parts' }, asked(it.request), replied(it.response));
  return el('section', { class: 'interaction' }, title, statesOf(it), parts);
}

// What changed

const MOST_CELLS = 4_000_000;

/** The lines of two texts: which are gone, which are new, and which stay (the longest common list of them). */
export function difference(old, now) {
  const [one, other] = [old.split('\n'), now.split('\n')];
  let head = 0, tail = 0;
  while (head < Math.min(one.length, other.length) && one[head] === other[head]) head += 1;
  while (tail < Math.min(one.length, other.length) - head && one.at(-1 - tail) === other.at(-1 - tail)) tail += 1;
  const [left, right] = [one.slice(head, one.length - tail), other.slice(head, other.length - tail)];
  // texts that differ in too many lines are shown one after the other
  if (left.length * right.length > MOST_CELLS) return [...one.map(it => ['-', it]), ...other.map(it => ['+', it])];
  const common = Array.from({ length: left.length + 1 }, () => new Uint32Array(right.length + 1));
  for (let i = left.length - 1; i >= 0; i -= 1) {
    for (let j = right.length - 1; j >= 0; j -= 1) {
      common[i][j] = left[i] === right[j] ? common[i + 1][j + 1] + 1 : Math.max(common[i + 1][j], common[i][j + 1]);
    }
  }
  const found = one.slice(0, head).map(it => [' ', it]);
  for (let i = 0, j = 0; i < left.length || j < right.length;) {
    const isGone = i < left.length && (j === right.length || common[i + 1][j] >= common[i][j + 1]);
    if (i < left.length && left[i] === right[j]) [i, j] = [i + 1, j + 1, found.push([' ', left[i]])];
    else if (isGone) found.push(['-', left[i++]]);
    else found.push(['+', right[j++]]);
  }
  return [...found, ...one.slice(one.length - tail).map(it => [' ', it])];
}

// How many lines stay around what changed.
const AROUND = 3;

function changes(old, now) {
  const all = difference(inLines(valueOf(old)), inLines(valueOf(now)));
  const isNear = (_, at) => all.slice(Math.max(0, at - AROUND), at + AROUND + 1).some(([sign]) => sign !== ' ');
  const kinds = { '-': 'gone', '+': 'new', ' ': '' };
  const rows = all.map((it, at) => (isNear(it, at) ? it : null)).filter((it, at, list) => it || at === 0 || list[at - 1]);
  return el('pre', { class: 'changes', tabindex: '0' }, rows.map(it =>
    (it ? el('span', { class: kinds[it[0]] }, `${it[0]} ${it[1]}\n`) : el('span', {}, '…\n'))));
}

/** Where another version of the consumer is, to be compared with. */
async function since({ environments }, provider, consumer, number) {
  const found = new Map();
  for (const all of await listings(environments)) {
    for (const it of [...all.deployed, ...all.released]) {
      if (it.pacticipant !== consumer || it.version === number) continue;
      found.set(it.version, [...found.get(it.version) ?? [], all.environment]);
    }
  }
  const links = [...found].map(([it, where]) => [link([numbered(it, [number]), ` (${[...new Set(where)].join(', ')})`],
    'contract', provider, consumer, number, it), ' ']);
  return links.length ? el('p', {}, 'What changed since: ', links) : '';
}

/** The latest results for the contract, or that this token isn't shown any. */
function results(rows, provider) {
  if (rows === null) return el('p', {}, UNSHOWN);
  const mine = rows.filter(it => it.provider === provider && it.success !== null);
  mine.sort((one, it) => it.result - one.result);
  if (mine.length === 0) return el('p', {}, 'No version of ', named(provider), ' has a result for it.');
  const name = it => version(it.provider, it.providerVersion, mine.map(other => other.providerVersion));
  const each = it => el('li', {}, tag(it.success ? '✓ pass' : '✕ fail', it.success ? 'yes' : 'no'), ' ', name(it),
    `, ${it.evidence}, no. ${it.result}`);
  return [el('ul', { class: 'results' }, mine.slice(0, MOST_RESULTS).map(each)), el('p', { class: 'act' }, KNOWN)];
}

const MOST_RESULTS = 12;
const UNSHOWN = 'Not shown to this token: only the consumer’s team, or the office, may ask.';
const KNOWN = 'The broker keeps whether a result passed, and not which interactions failed: the build that sent it '
  + 'says that.';

export async function contract(settings, provider, consumer, number, old) {
  const words = form('Show', [input('provider', provider), input('consumer', consumer), input('version', number)],
    (...them) => go('contract', ...them));
  if (!(provider && consumer && number)) return [heading('A contract'), words];
  const [text, before] = await Promise.all([number, old].map(it => it && contractOf(provider, consumer, it)));
  const it = { pacticipant: consumer, version: number }, { rows } = await matrixOf(consumer, number).catch(failure => {
    if (failure.status === 403) return { rows: null };
    throw failure;
  });
  const top = [heading('The contract of ', version(consumer, number), ' with ', named(provider)), words];
  const changed = old && [el('h3', {}, 'What changed since ', version(consumer, old, [number])),
    text === before ? el('p', {}, 'Nothing: both have one contract.') : changes(before, text)];
  const { interactions } = valueOf(text);
  const others = await since(settings, provider, consumer, number);
  const more = el('p', {}, link('All results of this version', 'matrix', consumer, number), buildOf(settings, it));
  return [top, more, others, changed || '', el('h3', {}, 'Latest results'), results(rows, provider),
    interactions.map(interaction)];
}
