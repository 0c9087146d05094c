// What is asked: each request is a GET. The token is in this variable and nowhere else.
import { count, named, say } from './nodes.js';

const PATIENCE = 60000, AT_ONCE = 6;
let token = '', leaving = new AbortController(), isSignedIn = false;
// Of the view that is there: what was asked and answered, since when; how many are under way, and which wait.
let asked = 0, answered = 0, since = null, progress = () => {}, busy = 0;
const waiting = [];

const TOKEN = /^[\w\-.~+/=]{16,128}$/, FIELD = /^(authorization:)?\s*bearer\s+/i;

/** Takes a token, also as the line of a file for curl; says whether it is one. */
export function takeToken(text) {
  const words = text.trim().replace(FIELD, '').trim();
  token = TOKEN.test(words) ? words : '';
  return token !== '';
}

export function forgetToken() {
  token = '';
}

export const mayAsk = () => token !== '' || isSignedIn;
export const hasToken = () => token !== '';

/** Gives up the questions of the view that is there. */
export function end() {
  leaving.abort();
}

/** Begins the questions of a view; those of the one before are given up. */
export function begin(told) {
  end();
  leaving = new AbortController();
  [asked, answered, since, progress] = [0, 0, null, told];
}

export const askedSince = () => since;

/** Why there is no answer: a sentence, and the status, if one came. */
export class Failure extends Error {
  constructor(sentence, status, what) {
    super('no answer');
    Object.assign(this, { sentence, status, what });
  }
}

/** Does this when its turn comes: six are under way at once. */
async function inTurn(work) {
  if (busy >= AT_ONCE) await new Promise(go => waiting.push(go));
  else busy += 1;
  try {
    return await work();
  } finally {
    const next = waiting.shift();
    if (next) next();
    else busy -= 1;
  }
}

/** What comes of a GET of the view with this signal. Cookies go along only where no token is typed, as where a proxy
 * signs everybody in. */
async function fetched(path, left = leaving.signal, headers = {}) {
  if (left.aborted) throw new Failure(say`This view was left.`);
  const credentials = headers.authorization ? 'omit' : 'same-origin';
  const how = { method: 'GET', headers, cache: 'no-store', credentials, redirect: 'error' };
  const stop = new AbortController(), give = () => stop.abort();
  left.addEventListener('abort', give);
  const clock = setTimeout(give, PATIENCE);
  try {
    const reply = await fetch(path, { ...how, signal: stop.signal });
    return { status: reply.status, text: await reply.text() };
  } catch {
    throw new Failure(say`No answer came: the network or the proxy is down.`);
  } finally {
    clearTimeout(clock);
    left.removeEventListener('abort', give);
  }
}

function parsed(text) {
  try {
    return JSON.parse(text);
  } catch {
    return null;
  }
}

/** Whether a value has these fields, each of one of its types; a list has the fields of each item. */
function has(value, fields) {
  const is = (it, type) => type.split(' ').includes(it === null ? 'null' : typeof it);
  const all = (it, type) => Array.isArray(it) && it.every(each => has(each, type[0]));
  if (typeof value !== 'object' || value === null) return false;
  return Object.entries(fields).every(([name, type]) => (Array.isArray(type) ? all : is)(value[name], type));
}

/** What the broker answers with status 200 to a question with these names. */
async function answerTo(path, names) {
  const mine = leaving.signal, headers = token ? { authorization: 'Bearer ' + token } : {};
  asked += 1;
  since ??= new Date();
  const { status, text } = await inTurn(() => fetched(path, mine, headers));
  if (mine !== leaving.signal) throw new Failure(say`This view was left.`);
  answered += 1;
  progress(answered, asked);
  const answer = parsed(text);
  if (status !== 200) throw new Failure(refusal(status, answer, names), status, answer?.what);
  return { text, answer };
}

/** What is shown to a question, if it is an answer of the broker with these fields. */
async function ask(path, names, fields) {
  const { answer } = await answerTo(path, names);
  if (has(answer, { answer: 'string', ...fields }) && answer.answer === 'shown') return answer;
  throw new Failure(say`What came isn’t an answer of the broker, so nothing of it is shown.`);
}

function refusal(status, answer, names) {
  const code = String(status), what = answer?.what;
  if (status === 401 && !token) return say`You aren’t signed in any more: load this page again.`;
  if (status === 401) return say`The broker doesn’t know this token.`;
  if (status === 429) return say`The proxy answers 429: too much was asked at once. Ask again in some seconds.`;
  if (typeof answer?.answer !== 'string') return status >= 502 && status <= 504
    ? say`The proxy answers ${code}: the broker isn’t running, is being started, or is busy. Ask again in some seconds.`
    : say`The proxy answers ${code}, and not the broker.`;
  if (status === 403) return say`This token may not ask that: only the service’s own team, or the office, may.`;
  if (what === 'version') return say`The broker has no version ${names.version} of ${names.pacticipant}.`;
  if (what === 'contract') return say`${names.consumer} ${names.version} has no contract with ${names.provider}.`;
  if (what === 'pacticipant' && names.provider !== undefined) {
    return say`The broker has no pacticipant ${names.provider}, or none called ${names.consumer}.`;
  }
  if (names[what] !== undefined) return [`The broker has no ${what} `, named(names[what]), '.'];
  if (status === 404) return say`The broker has no such route: this page isn’t for what is at this address.`;
  if (status === 422) return say`The broker can’t read the question: one of its words isn’t a name.`;
  return say`The broker failed: it answers ${code} ${answer.answer}.`;
}

const query = words => Object.entries(words).map(([key, value]) => `${key}=${encodeURIComponent(value)}`).join('&');
const path = (...words) => '/' + words.map(encodeURIComponent).join('/');
const TEXT = 'string', MAYBE = 'string null';
const PAIR = { consumer: TEXT, consumerVersion: TEXT, provider: TEXT, providerVersion: MAYBE };
const ITEM = { pacticipant: TEXT, version: TEXT };
const KINDS = ['absent', 'missing', 'failed', 'claimed'];

/** No browser asks for a segment of dots as it is. */
function mayBeAsked(what, ...names) {
  const dots = names.find(it => /^\.\.?$/.test(it));
  if (dots) throw new Failure([`No browser can ask for ${what} called `, named(dots), '.']);
}

export async function canDeploy(pacticipant, version, environment) {
  const words = { pacticipant, version, environment };
  const fields = { environment: TEXT, faults: [{ ...PAIR, kind: TEXT }], gated: 'boolean', permitted: 'boolean' };
  const answer = await ask('/can-i-deploy?' + query(words), words, fields);
  if (answer.faults.every(it => KINDS.includes(it.kind))) return answer;
  throw new Failure(say`The answer has a kind of fault that this page doesn’t know.`);
}

export function matrixOf(pacticipant, version) {
  const row = { ...PAIR, evidence: MAYBE, result: 'number null', success: 'boolean null' };
  return ask('/matrix?' + query({ pacticipant, version }), { pacticipant, version }, { rows: [row] });
}

export async function listing(environment) {
  mayBeAsked('an environment', environment);
  const fields = { environment: TEXT, gated: 'boolean', deployed: [{ ...ITEM, instance: TEXT }], released: [ITEM] };
  return ask(path('environments', environment), { environment }, fields);
}

/** The normal text of a contract. */
export async function contractOf(provider, consumer, version) {
  mayBeAsked('a contract of what is', provider, consumer, version);
  const names = { provider, consumer, version, pacticipant: consumer };
  const where = path('pacts', 'provider', provider, 'consumer', consumer, 'version', version);
  const { text, answer } = await answerTo(where, names);
  if (has(answer, { interactions: [{ description: TEXT }] })) return text;
  throw new Failure(say`What came isn’t a contract, so nothing of it is shown.`);
}

// What is beside the page

/** What desk.json says: the environments, whom to call for a service, where builds are, whether the proxy signs in. */
export async function settings() {
  const { status, text } = await fetched('desk.json'), found = parsed(text) ?? {};
  const { environments, contacts, builds, signedIn, who } = found;
  if (status === 401 || status === 403) throw new Failure(say`You aren’t signed in any more: load this page again.`);
  if (status !== 200 || !Array.isArray(environments) || !environments.every(it => typeof it === 'string')) {
    throw new Failure(say`The file desk.json beside this page can’t be read, or names no environments.`);
  }
  isSignedIn = signedIn === true;
  return { environments, contacts: new Map(Object.entries(contacts ?? {})), builds, who };
}

/** Who put what into an environment, oldest first, as `holzhebo who --page` writes it, if desk.json says that such files
 * are beside it; nothing if there is none. A file's name has the environment as an address has it, so in the file's own
 * address it is written so twice. */
export async function whoDid({ who }, environment) {
  if (who !== true) return [];
  const name = encodeURIComponent(encodeURIComponent(environment));
  const { status, text } = await fetched(`who-${name}.json`), found = parsed(text);
  const line = { change: TEXT, pacticipant: TEXT, version: TEXT, instance: TEXT, team: TEXT, time: TEXT };
  return status === 200 && has({ found }, { found: [line] }) ? found : [];
}

/** How far a view is that asks much. */
export const waits = (done, all) => (all > AT_ONCE ? ` ${done} of ${count(all, 'answer')}` : '');
