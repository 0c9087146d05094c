// What is where: the board, and one environment.
import { canDeploy, listing, whoDid } from './ask.js';
import { MEANS, mark } from './gate.js';
import { count, el, filter, heading, link, named, numbered, say, table, tag } from './nodes.js';
import { buildOf } from './place.js';

const servicesOf = all => [...new Set([...all.deployed, ...all.released].map(it => it.pacticipant))];

function itemsOf(all, service) {
  const item = (it, how) => ({ version: it.version, how: how(it), instance: it.instance ?? '' });
  const mine = (items, how) => items.filter(it => it.pacticipant === service).map(it => item(it, how));
  const deployed = it => (it.instance === '' ? 'deployed' : say`deployed as ${it.instance}`);
  return [...mine(all.deployed, deployed), ...mine(all.released, () => 'released')];
}

/** The environments that the broker knows; of another one only its name. */
export async function listings(names) {
  const one = async name => {
    try {
      return await listing(name);
    } catch (it) {
      if (it.status !== 404 || it.what !== 'environment') throw it;
      return { environment: name, deployed: [], released: [], lacks: true };
    }
  };
  return Promise.all(names.map(one));
}

/** What the gate says now of a version that is there: whether it would be refused, or nothing if this token may not ask
 * that; and how it is shown. */
async function today(service, number, environment) {
  try {
    const { faults, permitted } = await canDeploy(service, number, environment);
    if (faults.length === 0) return [false, tag('✓ no faults', 'yes')];
    const text = (permitted ? '' : '✕ refused today, ') + count(faults.length, 'fault');
    return [!permitted, link(tag(text, permitted ? '' : 'no'), 'ask', service, number, environment)];
  } catch (failure) {
    if (failure.status === 403) return [null, tag('not shown to this token')];
    throw failure;
  }
}

// The changes that put a version somewhere.
const PUTS = ['deployments', 'releases'];

/** Who put it there, and when, if the proxy's log says so. */
export function when(who, service, it) {
  const isIt = each => PUTS.includes(each.change) && each.pacticipant === service && each.version === it.version
    && each.instance === it.instance;
  const found = who.filter(isIt).at(-1);
  return found ? el('small', { class: 'who' }, found.time.slice(0, 10), ' by ', named(found.team)) : '';
}

/** Since when the log is that says it. */
function since(lists) {
  const first = lists.flatMap(it => it.slice(0, 1)).map(it => it.time).sort()[0];
  return first ? el('p', { class: 'act' }, `Who put it there: by the proxy’s log, since ${first}.`) : '';
}

function cell(all, service, others, marks) {
  const lines = itemsOf(all, service).map(it => {
    const how = it.how === 'deployed' ? '' : [' ', it.how];
    const place = marks ? el('span', { class: 'mark' }, tag('…')) : '';
    if (marks) marks.push({ service, version: it.version, environment: all.environment, place });
    const shown = link(numbered(it.version, others), 'matrix', service, it.version);
    return el('div', {}, shown, how, marks ? [' ', place] : '', when(all.who, service, it));
  });
  if (all.lacks) return el('td', { class: 'none' });
  return lines.length ? el('td', {}, lines) : el('td', { class: 'none' }, '–');
}

/** Puts each mark into its place as it is answered, says how many are refused, and has the row looked at again. */
async function marked(marks, said, look) {
  let answered = 0, refused = 0, hidden = 0;
  const tell = () => {
    const left = answered < marks.length ? ` (${answered} of ${count(marks.length, 'answer')} so far)` : '';
    const more = hidden ? `; ${hidden} not shown to this token` : '';
    said.textContent = `${refused} of ${marks.length - hidden} refused today${left}${more}.`;
  };
  tell();
  await Promise.all(marks.map(async ({ service, version, environment, place }) => {
    const [isRefused, mark] = await today(service, version, environment), row = place.closest('tr');
    place.replaceChildren(mark);
    answered += 1;
    refused += isRefused ? 1 : 0;
    hidden += isRefused === null ? 1 : 0;
    if (isRefused) row.dataset.refused = '';
    look([row]);
    tell();
  }));
}

/** A box that hides what isn't refused. */
function onlyRefused(apply) {
  const box = el('input', { type: 'checkbox', id: 'only' });
  box.addEventListener('change', apply);
  return { box, node: el('label', { class: 'only' }, box, ' only refused') };
}

const NOTHING = 'desk.json beside this page names no environments yet: no route of the broker lists them, so write '
  + 'their names there.';

export async function board(settings, which) {
  const asks = which === 'today', { environments } = settings;
  if (environments.length === 0) return [heading('What is where'), el('p', {}, NOTHING)];
  const marks = asks ? [] : null;
  const all = await Promise.all((await listings(environments)).map(async it =>
    ({ ...it, who: await whoDid(settings, it.environment) })));
  const services = [...new Set(all.flatMap(servicesOf))].sort();
  const numbers = service => all.flatMap(it => itemsOf(it, service)).map(it => it.version);
  const row = service => [named(service), ...all.map(it => cell(it, service, numbers(service), marks))];
  const name = it => link(named(it.environment), 'environment', it.environment);
  const head = it => [name(it), ' ', tag(it.lacks ? 'unknown' : mark(it))];
  const grid = table('Services down, environments across', ['service', ...all.map(head)], services.map(row));
  const lacks = all.filter(it => it.lacks).map(it =>
    el('p', { class: 'trouble' }, say`${it.environment}: named in desk.json, unknown to the broker.`));
  const to = (from, it) => link([named(from), ' to ', named(it)], 'promote', from, it);
  const others = environments.slice(1).map((it, at) => [at ? ', ' : '', to(environments[at], it)]);
  const next = others.length ? el('p', {}, 'What may go from one to the next: ', others) : '';
  const turned = asks
    ? ['A mark is what the gate says now of a version that is there already. ', link('Without marks', 'board')]
    : link('What of this would the gate refuse today?', 'board', 'today');
  const said = el('p', { class: 'summary' });
  const only = onlyRefused(() => sieve.apply());
  const hides = it => only.box.checked && !('refused' in it.dataset);
  const sieve = filter([grid], { rows: 'tbody tr', hides, hint: 'a service, a version' });
  const tools = el('div', { class: 'tools' }, sieve.node, asks ? only.node : '');
  const nodes = [heading('What is where'), asks ? said : '', tools, lacks, grid, el('p', {}, turned), next,
    since(all.map(it => it.who))];
  return asks ? { nodes, later: marked(marks, said, sieve.apply) } : nodes;
}

export async function environment(settings, name) {
  const { environments, contacts } = settings;
  const others = el('p', {}, 'Environments: ', environments.map(it => [link(named(it), 'environment', it), ' ']));
  if (!name) return [heading('An environment'), others];
  const [all, who] = await Promise.all([listing(name), whoDid(settings, name)]);
  const means = el('p', {}, named(name), ' ', tag(mark(all)), ` ${MEANS[mark(all)]}.`);
  const team = it => (contacts.has(it) ? named(String(contacts.get(it))) : '');
  const row = (service, it) => [named(service), [link(numbered(it.version), 'matrix', service, it.version),
    buildOf(settings, { pacticipant: service, version: it.version })], [it.how, ' ', when(who, service, it)],
    team(service), link('ask the gate', 'ask', service, it.version, name)];
  const rows = servicesOf(all).sort().flatMap(service => itemsOf(all, service).map(it => row(service, it)));
  const heads = ['service', 'version', 'how', 'team', 'today'];
  const body = rows.length ? table('What is there', heads, rows) : el('p', {}, 'Nothing is there.');
  return [heading('What is in ', named(name)), others, means, body, since([who])];
}
