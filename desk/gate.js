// What the gate says of a version, in sentences and as a drawing.
import { canDeploy, listing, matrixOf } from './ask.js';
import { choice, count, el, form, heading, input, link, named, say, tag, version, versionsAmong } from './nodes.js';
import { buildOf, go } from './place.js';
import { actors } from './plan.js';

export const mark = it => (it.strict ? 'strict' : it.gated ? 'gated' : 'open');
export const MEANS = {
  open: 'takes every version, also one with faults',
  gated: 'takes a version only if its providers are here, and each contract between it and what is here passes',
  strict: 'takes a version only if its providers are here, and the broker checked that each contract passes',
};

export const consumerOf = (it, name = version) => name(it.consumer, it.consumerVersion);
export const providerOf = (it, name = version) =>
  (it.providerVersion === null ? named(it.provider) : name(it.provider, it.providerVersion));
export const contractLink = (it, text = 'the contract') =>
  link(text, 'contract', it.provider, it.consumer, it.consumerVersion);

/** For each kind of fault: what is so, what to do, the sign of the drawing; and `more`, which a plan leaves out. */
export const REASONS = {
  absent: {
    so: (it, name, there) => say`${consumerOf(it, name)} calls ${it.provider}, of which no version is in ${there}.`,
    act: 'deploy a version of it there first.', sign: '– not there',
    more: () => [' ', link('Promote', 'promote'), ' on the page, or holzhebo plan FROM TO, says which may go.'],
  },
  missing: {
    so: (it, name) => say`${providerOf(it, name)} has no result for the contract of ${consumerOf(it, name)}.`,
    act: 'verify the contract, and send the result.', sign: '? no result',
  },
  failed: {
    so: (it, name) => say`${providerOf(it, name)} fails the contract of ${consumerOf(it, name)}, by its latest result.`,
    act: 'one of them has to change; then a result that passes is needed.', sign: '✕ failed',
  },
  claimed: {
    so: (it, name, there) =>
      [...say`${providerOf(it, name)} only claims to keep the contract of ${consumerOf(it, name)}, `,
        ...say`and ${there} wants it checked.`],
    act: 'send the replies that were recorded.', sign: '! only claimed',
  },
};

export const contactOf = (service, contacts) =>
  (contacts.has(service) ? [' (', named(String(contacts.get(service))), ')'] : []);

function reason(fault, there, contacts, name) {
  const { so, act, more = () => '' } = REASONS[fault.kind];
  const team = it => ['the team of ', named(it), contactOf(it, contacts)];
  const teams = actors(fault).flatMap((it, at) => [at ? ' and ' : '', team(it)]);
  const todo = el('p', { class: 'act' }, 'To act: ', teams, ': ', act, more(), ' ', contractLink(fault));
  return el('li', {}, tag(fault.kind, 'no'), ' ', so(fault, name, there), todo);
}

function verdict(answer, it) {
  return answer.permitted
    ? el('p', { class: 'verdict yes' }, '✓ ', say`${it} may go to ${answer.environment}.`)
    : el('p', { class: 'verdict no' }, '✕ ', say`${it} may not go to ${answer.environment}.`);
}

function reasons({ faults, permitted, environment }, contacts, name) {
  const number = count(faults.length, 'reason');
  const good = say`Each contract between it and what is in ${environment} has a result that counts there.`;
  if (faults.length === 0) return el('p', {}, good);
  const why = permitted
    ? [named(environment), ` is open, so it takes it; a gated environment would refuse it for ${number}:`]
    : `For ${number}:`;
  return [el('p', {}, why), el('ol', { class: 'reasons' }, faults.map(it => reason(it, environment, contacts, name)))];
}

/** The needs of the version there: the faults of the answer, and of the matrix what passes with what is there. */
function needs(answer, rows, there, it, name) {
  const key = (...words) => JSON.stringify(words);
  const isThere = new Set([...there.deployed, ...there.released].map(each => key(each.pacticipant, each.version)));
  const calls = row => row.consumer === it.pacticipant && row.consumerVersion === it.version;
  const partner = row => (calls(row) ? [row.provider, row.providerVersion] : [row.consumer, row.consumerVersion]);
  const needOf = row => key(calls(row), ...partner(row));
  const isBad = new Set(answer.faults.map(needOf));
  const good = rows.filter(row => row.success && isThere.has(key(...partner(row))) && !isBad.has(needOf(row)));
  const need = (row, kind, sign) =>
    ({ calls: calls(row), shown: (calls(row) ? providerOf : consumerOf)(row, name), kind, sign });
  const bad = answer.faults.map(row => need(row, 'no', REASONS[row.kind].sign));
  return [...bad, ...good.map(row => need(row, 'yes', '✓ ' + row.evidence))];
}

function drawing(all, it, there) {
  const box = need => el('span', { class: 'box ' + need.kind }, need.shown);
  const arrow = need => el('span', { class: 'arrow ' + need.kind }, el('span', {}, need.sign));
  const side = (items, none) => el('ul', {}, items.length ? items : el('li', { class: 'none' }, none));
  const callers = all.filter(need => !need.calls).map(need => el('li', {}, box(need), arrow(need)));
  const called = all.filter(need => need.calls).map(need => el('li', {}, arrow(need), box(need)));
  const caption = say`Who calls whom in ${there}: each arrow leads from a consumer to its provider`;
  const middle = el('div', { class: 'box it' }, it);
  const sides = [side(callers, 'nobody there calls it'), middle, side(called, 'it calls nobody')];
  return el('figure', {}, el('figcaption', {}, caption), el('div', { class: 'drawing' }, sides));
}

/** The answers of a question. The gate is asked first, so that nothing else is asked in vain, and again last, so that
 * what it says is never older than what is drawn beside it. */
async function answers(service, number, environment) {
  await canDeploy(service, number, environment);
  const [{ rows }, there] = await Promise.all([matrixOf(service, number), listing(environment)]);
  return { answer: await canDeploy(service, number, environment), rows, there };
}

/** Can it go? */
export async function question(settings, service, number, environment) {
  const { environments, contacts } = settings;
  const known = new Set(environment ? [...environments, environment] : environments);
  const words = [input('service', service), input('version', number), choice('environment', [...known], environment)];
  const top = [heading('Can it go?'), form('Ask', words, (...them) => go('ask', ...them))];
  if (!(service && number && environment)) return top;
  const { answer, rows, there } = await answers(service, number, environment);
  const sides = [...rows, ...answer.faults].flatMap(it => [{ pacticipant: it.consumer, version: it.consumerVersion },
    { pacticipant: it.provider, version: it.providerVersion }]);
  const name = versionsAmong(sides), it = { pacticipant: service, version: number }, own = () => name(service, number);
  const more = el('p', {}, link('All results of this version', 'matrix', service, number), buildOf(settings, it));
  const all = needs(answer, rows, there, it, name);
  return [top, verdict(answer, own()), reasons(answer, contacts, name), drawing(all, own(), environment), more];
}
