// What of one environment may go to another: refused first, by who has to act, then the order of the others.
import { Failure, canDeploy, listing, matrixOf } from './ask.js';
import { REASONS, contractLink } from './gate.js';
import { choice, el, filter, form, heading, link, named, say, tag, versionsAmong } from './nodes.js';
import { buildOf, go } from './place.js';
import { Changed, Plan, actors, faultsOf, idOf, placed, stepsOf } from './plan.js';

// How often it is asked again if something changes meanwhile.
const TRIES = 3;

/** A line that the filter looks at, also by words that aren't shown. */
const line = (words, ...children) => el('li', { 'data-words': words.join(' ') }, children);

/** Services that go are in the other environment, and the first has nothing of them. */
function mustGo(from, to, gone) {
  const has = (all, service) => placed(all).some(it => it.pacticipant === service);
  for (const it of gone) {
    if (has(from, it)) throw new Failure(say`${it} is in ${from.environment}, so it can’t go.`);
    if (!has(to, it)) throw new Failure(say`${it} isn’t in ${to.environment}.`);
  }
}

/** What is known: both environments, and the plan. */
async function known(source, target, gone) {
  for (let tries = 0; tries < TRIES; tries += 1) {
    const two = await Promise.all([source, target].map(listing)), [from, to] = two;
    mustGo(from, to, gone);
    const { steps, kept } = stepsOf(from, to, gone), questions = { gate: canDeploy, matrix: matrixOf };
    const faults = await faultsOf(steps, from, to, questions, kept, gone).catch(it => {
      if (it instanceof Changed) return null;
      throw it;
    });
    const again = faults && await Promise.all([source, target].map(listing));
    const isSame = again && JSON.stringify(again) === JSON.stringify(two);
    if (isSame) return { from, to, kept, plan: new Plan({ steps, kept, faults }) };
  }
  throw new Failure(say`Something changes while it is looked at.`);
}

/** Says a plan; `name` shows a version, `team` says whose a service is. */
class Teller {
  constructor({ from, to, kept, plan }, settings, gone) {
    Object.assign(this, { plan, from, to, settings, gone, steps: plan.steps, contacts: settings.contacts });
    ({ order: this.order, isSure: this.isSure } = plan.largest());
    this.name = versionsAmong([...placed(from), ...placed(to)]);
    this.left = plan.all.filter(x => !this.order.includes(x));
    this.now = this.order.filter(x => plan.after(x, this.order).length === 0);
    const here = new Set(placed(from).map(idOf));
    this.only = kept.filter(it => !here.has(idOf(it)));
    this.circles = plan.circles();
    const next = circle => circle.map(([x], at) => [x, circle[(at + 1) % circle.length][0]]);
    this.ring = new Map(this.circles.flatMap(next));
  }

  named(x) {
    const { pacticipant, version } = this.steps[x];
    return this.name(pacticipant, version);
  }

  names(xs) {
    return xs.flatMap((x, at) => [at ? ', ' : '', this.named(x)]);
  }

  words(x) {
    const it = this.steps[x];
    return [it.pacticipant, it.version, it.old?.version ?? '', String(this.contacts.get(it.pacticipant) ?? '')];
  }

  /** Whether all of it may go, and how much of it. */
  verdict() {
    const { steps, order, left, now } = this, to = this.to.environment, waits = order.length - now.length;
    const yes = (...children) => el('p', { class: 'verdict yes' }, '✓ ', children);
    if (steps.length === 0) return yes(say`All of it is in ${to} already.`);
    if (!this.to.gated) return yes(say`${to} is open: it takes each of ${String(steps.length)}.`);
    const counts = `${order.length} of ${steps.length} may go: ${now.length} now, ${waits} after others`;
    if (left.length === 0) return yes(counts, '.');
    return el('p', { class: 'verdict no' }, `✕ ${counts}; ${left.length} not with them.`);
  }

  /** The same view, where these services go. */
  where(text, gone) {
    return link(text, 'promote', this.from.environment, this.to.environment, ...gone);
  }

  /** A step: the version, which leads to what the gate says of it now; its place; what is in that now. */
  step(x) {
    const it = this.steps[x], as = it.instance ? say` as ${it.instance}` : '';
    const where = it.how === 'release' || it.how === 'end-support' ? ' as a release' : as;
    if (it.ends) {
      const stays = this.where('it stays', this.gone.filter(each => each !== it.pacticipant));
      return [this.named(x), where, el('small', {}, ' goes (', stays, ')')];
    }
    const old = it.old ? [' for ', this.name(it.pacticipant, it.old.version).lastChild] : ' new there';
    const version = link(this.named(x), 'ask', it.pacticipant, it.version, this.to.environment);
    return [version, where, el('small', {}, old, buildOf(this.settings, it))];
  }

  ordered() {
    const { plan, order } = this;
    const item = (x, at) => {
      const after = plan.after(x, order).map(y => order.indexOf(y) + 1);
      const when = after.length ? tag(`after ${after.join(', ')}`) : tag('✓ now', 'yes');
      const it = line(this.words(x), this.step(x), ' ', when);
      it.value = at + 1; // it stays so if a filter hides others
      return it;
    };
    const title = this.left.length ? 'The others may go in this order' : 'It may go in this order';
    const unsure = this.isSure ? '' : el('p', { class: 'act unsure' }, UNSURE);
    return el('section', {}, el('h3', {}, title), unsure, el('ol', { class: 'steps' }, order.map(item)));
  }

  /** What no order brings there: what it waits for, or without what it may go. */
  stays() {
    const { plan, order, left, ring } = this, acts = new Set(plan.necessary()), all = new Set(plan.all);
    const why = (text, xs) => (xs.length > 0 ? [text, this.names(xs)] : '');
    const item = x => {
      const isOwn = ring.has(x) || plan.found(x, all).some(it => acts.has(it));
      const needs = y => plan.first[x].has(y) || plan.lacks[x].some(([, ys]) => ys.includes(y));
      const instead = plan.largest(x).order, without = instead.length ? order.filter(y => !instead.includes(y)) : [];
      const circle = ring.has(x) ? [ring.get(x)] : [];
      const ways = [why(' ↻ not before ', circle), why(' waits for ', isOwn ? [] : left.filter(needs)),
        why(' may go without ', without)];
      return line(this.words(x), this.step(x), ways);
    };
    const title = el('h3', {}, 'Refused with the others, until somebody acts');
    const note = ring.size > 0 ? el('p', { class: 'act' }, CIRCLE) : '';
    return el('section', {}, title, el('ul', { class: 'steps' }, left.map(item)), note);
  }

  /** A side of a fault; of what only is there also how. */
  side(pacticipant, version) {
    const mine = this.only.filter(it => it.pacticipant === pacticipant && it.version === version);
    const deployed = it => (it.instance ? say`, there as ${it.instance}` : ', there');
    const as = it => (it.how === 'release' ? ', released there' : deployed(it));
    return [this.name(pacticipant, version), mine.length ? el('small', {}, mine.map(as)) : ''];
  }

  pair(fault, isInRing) {
    const { consumer, consumerVersion, provider, providerVersion, kind } = fault;
    const called = kind === 'absent' ? named(provider) : this.side(provider, providerVersion);
    const text = [isInRing ? ' ↻ ' : ' ', this.side(consumer, consumerVersion), ' calls ', called, ' '];
    const why = tag(this.kind(fault) === GOES ? 'is to go' : kind, 'no');
    return line([consumerVersion, providerVersion ?? ''], why, text, contractLink(fault, 'contract'));
  }

  /** The kind of a fault; apart is that of a service that is called and is to go. */
  kind({ kind, provider }) {
    return kind === 'absent' && this.gone.includes(provider) ? GOES : kind;
  }

  /** The services whose teams can act: of one that is to go, who calls it. */
  actors(fault) {
    return this.kind(fault) === GOES ? [fault.consumer] : actors(fault);
  }

  /** What each team has to do: by team, then by kind. A service without a contact is a team of its own. */
  acts() {
    const inRing = new Set(this.circles.flat().map(([, fault]) => fault)), teams = new Map();
    for (const fault of [...this.plan.necessary(), ...inRing]) {
      for (const service of this.actors(fault)) {
        const team = String(this.contacts.get(service) ?? service), kinds = teams.get(team) ?? new Map();
        const each = this.kind(fault);
        teams.set(team, kinds.set(each, new Set([...kinds.get(each) ?? [], fault])));
      }
    }
    const act = each => (each === GOES ? DO_WITHOUT : REASONS[each].act);
    const kind = ([each, all]) => el('div', { class: 'pairs' }, el('p', { class: 'act' }, act(each)),
      el('ul', {}, [...all].map(it => this.pair(it, inRing.has(it)))));
    const todo = ([team, kinds]) =>
      el('div', { class: 'todo' }, el('h4', {}, named(team)), el('div', {}, [...kinds].map(kind)));
    const sorted = [...teams].sort(([one], [other]) => (one < other ? -1 : 1));
    return el('section', {}, el('h3', {}, 'Who has to act'), sorted.map(todo));
  }

  /** What only the other environment has, and no step is about; with a link that has a service go of which the first
   * has nothing. */
  stayers() {
    const { only } = this, to = this.to.environment, here = new Set(placed(this.from).map(it => it.pacticipant));
    if (only.length === 0) return '';
    const as = it => (it.how === 'release' ? ' (released)' : it.instance ? [' (as ', named(it.instance), ')'] : '');
    const where = it => this.where('it goes', [...this.gone, it.pacticipant]);
    const goes = it => (here.has(it.pacticipant) ? '' : [' (', where(it), ')']);
    const names = only.map((it, at) => [at ? ', ' : '', this.name(it.pacticipant, it.version), as(it), goes(it)]);
    return el('p', { class: 'act' }, 'Only ', named(to), ' has ', names, ': this stays there, and is counted.');
  }
}

const GOES = 'goes', DO_WITHOUT = 'another version of it has to do without what is to go.';
const CIRCLE = '↻ Neither can go before the other, nor as another instance: one of the pairs marked so has to pass.';
const UNSURE = 'Not all orders were looked at: a longer one may exist.';
const GRANTS = 'Which team has a grant isn’t known here. Each step is judged again as it is recorded.';

export async function promote(settings, source, target, ...gone) {
  const names = [...new Set([...settings.environments, source, target].filter(Boolean))];
  const fields = [choice('from', names, source), choice('to', names, target ?? names.at(-1))];
  const words = form('Show', fields, (...them) => go('promote', ...them));
  if (!(source && target)) return [heading('What may go from one environment to another?'), words];
  const going = [...new Set(gone)].filter(Boolean), all = await known(source, target, going);
  const it = new Teller(all, settings, going), parts = [];
  if (it.left.length) parts.push(it.stays(), it.acts());
  if (it.order.length) parts.push(it.ordered());
  const looks = { rows: 'li', holders: '.pairs, .todo', hint: 'a service, a version, a team' };
  const sieve = parts.length ? filter(parts, looks).node : '';
  const top = [heading('What of ', named(source), ' may go to ', named(target), '?'), words];
  return [top, it.verdict(), sieve, parts, it.stayers(), el('p', { class: 'act' }, GRANTS)];
}
