// The broker's answers as a page. Each request is a GET. A view is whole or isn't there: from the moment a question is
// asked until its answer has come, no earlier one is shown; only marks of the board come into their places one by one.
import { Failure, askedSince, begin, end, forgetToken, hasToken, mayAsk, settings, takeToken, waits } from './ask.js';
import { board, environment } from './board.js';
import { contract } from './contract.js';
import { question } from './gate.js';
import { matrix } from './matrix.js';
import { copied, el, form, heading, input, link, say } from './nodes.js';
import { onSame, words } from './place.js';
import { promote } from './promote.js';
import { savings } from './saved.js';

const page = id => document.getElementById(id);
// After so many minutes what is shown is old.
const OLD = 10;
let turn = 0, clock = 0;

// Of each view its title, and how many words a question of it has: without them it is a form, and nothing is asked.
const VIEWS = {
  board: ['Board', board, 0],
  promote: ['Promote', promote, 2],
  ask: ['Can it go?', question, 3],
  matrix: ['Matrix', matrix, 2],
  contract: ['Contract', contract, 3],
  environment: ['Environments', environment, 1],
};

function signIn(sentence) {
  const field = input('token', '', { class: 'secret', type: 'password' });
  field.removeAttribute('maxlength');
  const fault = say`This isn’t a token: it has 16 to 128 letters, digits and -._~+/=.`;
  const it = form('Look', [field], text => {
    field.value = '';
    show(takeToken(text) ? null : new Failure(fault, 401));
  });
  const why = sentence ? el('p', { role: 'alert', class: 'trouble' }, sentence) : '';
  const kept = 'This page keeps it until it is closed, loaded again, or told to forget it, and stores it nowhere.';
  return [heading('Your token'), why, it, el('p', {}, kept)];
}

function again() {
  const it = el('button', { type: 'button' }, 'Ask again');
  it.addEventListener('click', () => show());
  return it;
}

function trouble({ sentence, status }) {
  if (status === 401 && !mayAsk()) return signIn(sentence);
  return [heading('No answer to show'), el('p', { role: 'alert', class: 'trouble' }, sentence), again()];
}

/** A moment with its date and its zone. */
function moment(it) {
  const two = number => String(number).padStart(2, '0'), minutes = -it.getTimezoneOffset(), size = Math.abs(minutes);
  const zone = minutes === 0 ? 'UTC' : `UTC${minutes < 0 ? '−' : '+'}${two(Math.floor(size / 60))}:${two(size % 60)}`;
  const date = [it.getFullYear(), two(it.getMonth() + 1), two(it.getDate())].join('-');
  return `${date} ${[it.getHours(), it.getMinutes(), it.getSeconds()].map(two).join(':')} ${zone}`;
}

/** When it was answered; and once that is long ago, that it was: above the view, where only the minutes change, so that
 * the keyboard may stay there. */
function times() {
  const first = askedSince() ?? new Date(), last = new Date();
  const long = last - first > 2000 ? `${moment(first)} to ${moment(last).slice(11)}` : moment(last);
  const it = el('p', { class: 'when' }, `As the broker answered at ${long}.`);
  const ago = el('span', {}), old = el('p', { class: 'old', role: 'status' }, ago, ' ', again());
  clearInterval(clock);
  clock = setInterval(() => {
    const minutes = Math.floor((Date.now() - last) / 60000), said = `This was asked ${minutes} minutes ago.`;
    if (minutes < OLD) return;
    if (ago.textContent !== said) ago.textContent = said;
    if (!old.isConnected) page('view').prepend(old);
  }, 5000);
  return it;
}

/** The nodes of the view that the address names, and what comes into them later. */
async function seen() {
  const [name, ...rest] = words(), all = await settings();
  if (!mayAsk()) return { nodes: signIn() };
  if (!Object.hasOwn(VIEWS, name)) throw new Failure(say`This address isn’t one of this page.`);
  const [, view, needed] = VIEWS[name], found = await view(all, ...rest);
  const { nodes, later } = Array.isArray(found) ? { nodes: found } : found;
  later?.catch(() => {}); // it is awaited once the nodes are there
  const isAsked = rest.slice(0, needed).filter(Boolean).length >= needed;
  return { nodes, later, isAsked };
}

/** What went wrong, as a failure; a fault of this page is one too. */
function failureOf(it) {
  if (it instanceof Failure) return it;
  console.error(it);
  return new Failure(say`This page has a fault of its own, and shows nothing.`);
}

function waiting() {
  const it = el('p', { class: 'waits' }, 'Asking the broker …');
  begin((done, all) => { it.textContent = `Asking the broker …${waits(done, all)}`; });
  page('view').replaceChildren(it);
}

/** Shows what the address names, or why it can't be shown; of two that are asked for at once only the later. */
async function show(failure) {
  const mine = ++turn, view = page('view');
  clearInterval(clock);
  view.setAttribute('aria-busy', 'true');
  page('said').replaceChildren();
  waiting();
  try {
    const { nodes, later, isAsked } = failure ? { nodes: trouble(failure) } : await seen();
    if (mine !== turn) return;
    view.replaceChildren(...nodes.flat(Infinity));
    placed(view);
    await later;
    if (mine === turn && isAsked) view.append(times(), savings(view));
  } catch (it) {
    if (mine !== turn) return;
    end();
    if (it.status === 401) forgetToken();
    view.replaceChildren(...trouble(failureOf(it)).flat(Infinity));
    placed(view);
  }
  if (mine === turn) finish(view);
}

/** What is beside the view: the links, the title, where the keyboard is. */
function placed(view) {
  const links = Object.entries(VIEWS).map(([name, [title]]) => [name, link(title, name)]);
  for (const [name, it] of links) if (name === words()[0]) it.setAttribute('aria-current', 'page');
  page('views').replaceChildren(...links.map(([, it]) => it));
  page('views').hidden = !mayAsk();
  page('forget').hidden = !hasToken();
  const title = view.querySelector('h2');
  document.title = `${title.textContent} – Release desk`;
  (view.querySelector('.secret') ?? title).focus();
}

/** That it is whole; and what a screen reader says beside the heading, which has the keyboard. */
function finish(view) {
  const said = view.querySelector('.verdict, .summary');
  page('said').replaceChildren(...said ? said.cloneNode(true).childNodes : []);
  view.setAttribute('aria-busy', 'false');
}

page('forget').addEventListener('click', () => {
  forgetToken();
  show();
});
document.addEventListener('copy', copied);
addEventListener('hashchange', () => show());
onSame(() => show());
show();
