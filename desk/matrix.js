// The matrix of a version: what it calls, and who calls it, with the latest results. What has one content and one
// result is one row, and versions of a provider with one outcome are one column.
import { matrixOf, whoDid } from './ask.js';
import { listings, when } from './board.js';
import { consumerOf, contractLink, providerOf } from './gate.js';
import { count, el, form, heading, input, link, named, numbered, table, version } from './nodes.js';
import { buildOf, go } from './place.js';

const key = (...words) => JSON.stringify(words);

/** A cell of the matrix: of one row of it, or of none. It leads to the contract. */
function result(row) {
  if (!row) return el('td', { class: 'none' });
  if (row.success === null) return el('td', {}, contractLink(row, el('span', { class: 'result' }, '? no result')));
  const [text, kind] = row.success ? ['✓ pass', 'yes'] : ['✕ fail', 'no'];
  const pill = el('span', { class: `result ${kind} ${row.evidence}` }, `${text}, ${row.evidence}`);
  return el('td', {}, contractLink(row, pill), ' ', el('small', {}, `no. ${row.result}`));
}

/** The rows in groups by a text of each, in their order. */
function gathered(rows, of) {
  const groups = new Map();
  for (const it of rows) {
    const name = of(it);
    if (groups.has(name)) groups.get(name).push(it);
    else groups.set(name, [it]);
  }
  return [...groups.values()];
}

/** The versions of a group: those that are in an environment, or else one, and how many others there are. */
function several(pacticipant, versions, where, why) {
  if (versions.length === 1) return version(pacticipant, versions[0], versions);
  const there = versions.filter(it => where.has(key(pacticipant, it)));
  const first = there.length ? there : versions.slice(0, 1);
  const others = versions.filter(it => !first.includes(it));
  const names = it => where.get(key(pacticipant, it)).map(each => each.environment).join(', ');
  const place = it => (there.length ? el('small', {}, ' in ', names(it)) : '');
  const shown = first.map((it, at) => [at ? ', ' : '', numbered(it, versions), place(it)]);
  const all = [named(pacticipant), ' ', shown];
  if (others.length === 0) return el('span', { class: 'several' }, all);
  const rest = el('details', {}, el('summary', {}, `and ${count(others.length, 'other')} ${why}`));
  rest.addEventListener('toggle', () => {
    const each = it => [link(numbered(it, versions), 'matrix', pacticipant, it), ' '];
    if (rest.children.length === 1) rest.append(el('p', {}, others.map(each)));
  }, { once: true });
  return el('span', { class: 'several' }, all, ' ', rest);
}

/** Which environments have a version, and who put it there, if the proxy's log says so. */
async function whereAre(settings) {
  const found = new Map();
  for (const all of await listings(settings.environments)) {
    const { environment } = all, who = await whoDid(settings, environment);
    for (const it of [...all.deployed, ...all.released.map(each => ({ ...each, instance: '' }))]) {
      const name = key(it.pacticipant, it.version), known = found.get(name) ?? [];
      const place = { environment, by: when(who, it.pacticipant, it) };
      if (!known.some(each => each.environment === environment)) found.set(name, [...known, place]);
    }
  }
  return found;
}

/** Where the version of the matrix is. */
function placeOf(places) {
  if (!places) return '';
  const each = ({ environment, by }, at) => [at ? ', ' : '', named(environment), by ? [' ', by] : ''];
  return el('p', { class: 'act' }, 'It is in ', places.map(each), '.');
}

/** The columns: versions of one provider with one outcome are one, whose latest result is shown. */
function columnsOf(rows) {
  const outcome = it => key(it.provider, it.consumer, it.success, it.evidence);
  return gathered(rows, outcome).map(all => {
    const latest = all.reduce((one, it) => (it.result > one.result ? it : one));
    return { latest, versions: [latest, ...all.filter(it => it !== latest)].map(it => it.providerVersion) };
  });
}

export async function matrix(settings, service, number) {
  const words = form('Show', [input('service', service), input('version', number)], (...them) => go('matrix', ...them));
  if (!(service && number)) return [heading('The matrix of a version'), words];
  const [{ rows }, where] = await Promise.all([matrixOf(service, number), whereAre(settings)]);
  const it = { pacticipant: service, version: number };
  const top = [heading('The matrix of ', version(service, number)), words, placeOf(where.get(key(service, number)))];
  if (rows.length === 0) return [top, el('p', {}, 'It has no contracts, and no results.', buildOf(settings, it))];
  const isOwn = row => row.consumer === service && row.consumerVersion === number;
  const calls = columnsOf(rows.filter(isOwn)), callers = rows.filter(row => !isOwn(row));
  const own = calls.map(({ latest }) => result(latest));
  const head = ({ provider }, versions) => several(provider, versions, where, 'of one outcome');
  const heads = calls.map(({ latest, versions }) =>
    (latest.providerVersion === null ? providerOf(latest) : head(latest, versions)));
  const last = callers.length ? [version(service, number)] : [];
  const empty = () => calls.map(() => result());
  const grid = calls.length ? [[consumerOf(rows.find(isOwn)), ...own, ...last.map(() => result())]] : [];
  for (const all of gathered(callers, row => key(row.consumer, row.result))) {
    const versions = all.map(row => row.consumerVersion);
    grid.push([several(all[0].consumer, versions, where, 'with the same contract'), ...empty(), result(all[0])]);
  }
  grid.sort(([one], [other]) => (one.textContent < other.textContent ? -1 : 1));
  const legend = 'Checked: the broker compared replies with the contract. Claimed: the provider’s team says so.';
  const nothing = 'An empty cell says nothing of its pair. Each result leads to its contract.';
  const all = table('Consumers down, providers across', ['consumer', ...heads, ...last], grid);
  return [top, all, el('p', {}, legend, ' ', nothing, buildOf(settings, it))];
}
