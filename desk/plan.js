// What of one environment may go to another, in an order in which the gate permits each step when its turn comes; or
// why there is no such order. It knows nothing of the page: client/src/holzhebo/plan.py is the same in another
// language, and tests/desk/test_plan.py holds both to one another.

/** A text of each list of words of its own. */
const key = (...words) => JSON.stringify(words);
export const idOf = it => key(it.pacticipant, it.version);
const pairOf = (...two) => two.map(idOf).sort().join();
const consumerOf = it => ({ pacticipant: it.consumer, version: it.consumerVersion });
const providerOf = it => ({ pacticipant: it.provider, version: it.providerVersion ?? '' });
const sidesOf = it => [consumerOf(it), providerOf(it)];

/** The services whose teams can act. */
export const actors = ({ consumer, provider, kind }) => (kind === 'failed' ? [consumer, provider] : [provider]);

// What differs

/** What is in an environment, each in its place: a deployment has that of its instance, a release one of its own. */
export function placed(all) {
  const place = (it, how, words) => ({ ...it, how, place: key(how, it.pacticipant, words) });
  const released = all.released.map(it => place({ ...it, instance: '' }, 'release', it.version));
  return [...all.deployed.map(it => place(it, 'deploy', it.instance)), ...released];
}

/** How what is there came, and how it is ended. */
const ENDS = { deploy: 'undeploy', release: 'end-support' };

/** What the other environment hasn't, with what it replaces there, and the end of what goes; and what stays there. What
 * is only released there is released, and what is there counts as released if it stays: a place that the first
 * environment has with another version is taken from it. */
export function stepsOf(from, to, gone = []) {
  const there = placed(to), at = new Map(there.map(it => [it.place, it]));
  const here = new Map(placed(from).map(it => [it.place, it.version]));
  const stays = new Set(there.filter(it => (here.get(it.place) ?? it.version) === it.version).map(idOf));
  const known = how => new Set(there.filter(it => it.how === how).map(it => it.pacticipant));
  const deployed = known('deploy'), released = known('release'), steps = new Map();
  for (const it of placed(from)) {
    const isRelease = it.how === 'release' || released.has(it.pacticipant) && !deployed.has(it.pacticipant);
    const place = isRelease ? key('release', it.pacticipant, it.version) : it.place, old = at.get(place);
    if (isRelease ? stays.has(idOf(it)) : old?.version === it.version) continue;
    const step = { pacticipant: it.pacticipant, version: it.version, old: isRelease ? undefined : old };
    steps.set(place, { ...step, how: isRelease ? 'release' : 'deploy', instance: isRelease ? '' : it.instance });
  }
  for (const it of there.filter(each => gone.includes(each.pacticipant))) {
    steps.set(it.place, { ...it, old: it, how: ENDS[it.how], ends: true });
  }
  return { steps: [...steps.values()], kept: there.filter(it => !steps.has(it.place)) };
}

// What is known

/** Collects faults: those of two versions by their pair, those of absent providers by the consumer; each once. Those of
 * services that go are by the version of another service that calls them. */
class Faults {
  bad = new Map();
  absent = new Map();
  without = new Map();
  known = new Map();

  add(it) {
    const name = key(it.consumer, it.consumerVersion, it.kind, it.provider, it.providerVersion);
    if (this.known.has(name)) return;
    this.known.set(name, it);
    const [of, at] = it.kind === 'absent' ? [this.absent, idOf(consumerOf(it))] : [this.bad, pairOf(...sidesOf(it))];
    of.set(at, [...of.get(at) ?? [], it]);
  }
}

/** Two answers that don't go together: something changed between them. */
export class Changed extends Error {}

/** The faults of each step's version with what is in the other environment, and with the other steps' versions, which
 * are all in the first: two answers of the gate a step. A strict environment needs the matrix too, if the first isn't
 * strict: a pass that is only claimed is no fault there. Of services that go the first has nothing, so what calls them
 * is what its gate says of each version that comes, stays, is replaced or ends. Nothing is asked if the gate of the
 * other one is open. */
export async function faultsOf(steps, from, to, { gate, matrix }, kept = [], gone = []) {
  const found = new Faults();
  if (!to.gated) return found;
  const once = all => [...new Map(all.map(it => [idOf(it), it])).values()], comes = steps.filter(it => !it.ends);
  const news = once(comes), isNew = new Set(news.map(idOf));
  const all = asked => Promise.all(news.map(asked));
  const [now, then, claims] = await Promise.all([
    all(it => gate(it.pacticipant, it.version, to.environment)),
    all(it => gate(it.pacticipant, it.version, from.environment)),
    to.strict && !from.strict ? all(it => matrix(it.pacticipant, it.version)) : [],
  ]);
  const isBetween = it => it.kind !== 'absent' && sidesOf(it).every(side => isNew.has(idOf(side)));
  for (const it of now.flatMap(answer => answer.faults)) found.add(it);
  const seen = new Map();
  for (const it of then.flatMap(answer => answer.faults).filter(isBetween)) {
    const name = key(it.consumer, it.consumerVersion, it.kind, it.provider, it.providerVersion);
    if (it.consumer !== it.provider) seen.set(name, (seen.get(name) ?? 0) + 1);
    if (to.strict || it.kind !== 'claimed') found.add(it);
  }
  // each of these faults is in the answer of both of its sides
  if ([...seen.values()].some(times => times !== 2)) throw new Changed();
  for (const row of claims.flatMap(answer => answer.rows)) {
    const { consumer, consumerVersion, provider, providerVersion } = row;
    const it = { consumer, consumerVersion, kind: 'claimed', provider, providerVersion };
    if (row.success && row.evidence === 'claimed' && isBetween(it)) found.add(it);
  }
  const stay = gone.length > 0 ? once([...news, ...kept, ...steps.map(it => it.old).filter(Boolean)]) : [];
  const answers = await Promise.all(stay.map(it => gate(it.pacticipant, it.version, from.environment)));
  const calls = ({ provider }, it) => gone.includes(provider) && provider !== it.pacticipant;
  stay.forEach((it, at) => found.without.set(idOf(it), answers[at].faults.filter(fault => calls(fault, it))));
  return found;
}

// The plan. Steps are known by their number, and what is done by the set of these.

/** How often two that clash are parted: for an order of all, and for one with a certain step. */
export const MOST_SPLITS = 500, FEW_SPLITS = 50;

/** What the gate says of a step after others. Which steps are done decides it, and not their order. Done steps only
 * take faults away, but for clashes: a new version that doesn't go with another new one, or that calls a service that
 * goes. So without clashes a step that is permitted stays so, and the order is found by doing each as soon as it is
 * permitted. With a clash there is no order of all: the later one of the two is refused. Ending something is never
 * refused by the gate; it counts as refused if what is there afterwards calls it. */
export class Plan {
  constructor({ steps, kept, faults }) {
    const between = (it, other) => (it.ends ? [] : faults.bad.get(pairOf(it, other)) ?? []);
    const calls = (version, it) => faults.without.get(idOf(version))?.filter(each => each.provider === it.pacticipant);
    const without = (version, it) => (it.ends ? calls(version, it) ?? [] : []);
    const ends = (one, other) => (one.ends === other.ends ? [] : [...without(one, other), ...without(other, one)]);
    const clashes = (one, other) => (one.ends || other.ends ? ends(one, other) : between(one, other));
    const beside = (it, other) => [...between(it, other), ...without(other, it)];
    const needs = (one, other) => (other.old ? beside(one, other.old) : []);
    const table = of => steps.map(it => new Map(steps.map((other, y) => [y, of(it, other)])
      .filter(([, found]) => found.length > 0)));
    const stays = [...new Map(kept.map(it => [idOf(it), it])).values()];
    Object.assign(this, { steps, all: steps.map((_, x) => x) });
    this.fixed = steps.map(it => stays.flatMap(other => beside(it, other)));
    this.clash = table(clashes);
    this.first = table(needs);
    this.touched = this.all.map(x => this.all.filter(y => this.clash[x].has(y) || this.first[x].has(y)));
    const bring = service => this.all.filter(y => steps[y].pacticipant === service && !steps[y].ends);
    const absent = it => (it.ends ? [] : faults.absent.get(idOf(it)) ?? []);
    this.lacks = steps.map(it => absent(it).map(fault => [fault, bring(fault.provider)]));
  }

  found(x, done, ignoresClashes = false) {
    const found = [...this.fixed[x]];
    for (const y of this.touched[x]) {
      if (!done.has(y)) found.push(...this.first[x].get(y) ?? []);
      else if (!ignoresClashes) found.push(...this.clash[x].get(y) ?? []);
    }
    return [...found, ...this.lacks[x].filter(([, ys]) => !ys.some(y => done.has(y))).map(([fault]) => fault)];
  }

  /** All faults that the gate would answer to step x after these steps. */
  faults(x, done) {
    return [...new Set(this.found(x, done))];
  }

  isRefused(x, done, ignored = new Set(), ignoresClashes = false) {
    return this.found(x, done, ignoresClashes).some(it => !ignored.has(it));
  }

  /** Each of these steps that is permitted, as soon as it is, again and again until none is added. */
  order(among, ignored = new Set(), ignoresClashes = false) {
    const done = new Set();
    for (let before = -1; done.size > before;) {
      before = done.size;
      for (const x of among) if (!done.has(x) && !this.isRefused(x, done, ignored, ignoresClashes)) done.add(x);
    }
    return [...done];
  }

  /** After which steps of the order this one is permitted, whatever else of the order is done. */
  after(x, order) {
    const done = order.slice(0, order.indexOf(x)), needed = new Set(done.filter(y => this.first[x].has(y)));
    for (const [, ys] of this.lacks[x]) {
      const brought = done.filter(y => ys.includes(y));
      if (brought.length > 0 && !ys.some(y => needed.has(y))) needed.add(brought[0]);
    }
    return done.filter(y => needed.has(y));
  }

  /** The most steps that have an order, in it; and whether that is sure. All steps that could ever go are those of the
   * order that ignores clashes; of two of them that clash one is left out, and each of both is tried. If one step must
   * be among them, and can't, there are none. */
  largest(must, most = must === undefined ? MOST_SPLITS : FEW_SPLITS) {
    let best = [], splits = 0;
    const search = among => {
      splits += 1;
      const order = this.order(among, new Set(), true);
      if (order.length <= best.length || splits > most || must !== undefined && !order.includes(must)) return;
      const clashes = new Map(order.map(x => [x, order.filter(y => this.clash[x].has(y))]));
      const worst = order.reduce((one, x) => (clashes.get(x).length > clashes.get(one).length ? x : one));
      if (clashes.get(worst).length === 0) best = order;
      else for (const out of [clashes.get(worst), [worst]]) search(order.filter(x => !out.includes(x)));
    };
    search(this.all.filter(x => must === undefined || !this.clash[must].has(x)));
    return { order: best, isSure: splits <= most };
  }

  /** The faults of which each by itself leaves no order of all steps: with what stays, of two new versions, of an
   * absent provider that no step brings, and of what calls a service that goes. */
  necessary() {
    const clashes = this.clash.flatMap(row => [...row.values()].flat());
    const nobody = this.lacks.flat().filter(([, ys]) => ys.length === 0).map(([fault]) => fault);
    return [...new Set([...this.fixed.flat(), ...clashes, ...nobody])];
  }

  /** Steps of which none can be the first, even if the necessary faults were mended, with one fault each: a shortest
   * circle; then another, as if the faults of those before were mended; until there is an order of all. */
  circles() {
    const found = [], ignored = new Set(this.necessary());
    for (;;) {
      const done = this.order(this.all, ignored), stuck = this.all.filter(x => !done.includes(x));
      if (stuck.length === 0) return found;
      const circle = this.circle(stuck, done, ignored);
      found.push(circle.length > 0 ? circle : this.knot(stuck, done, ignored));
      for (const [, fault] of found.at(-1)) ignored.add(fault);
    }
  }

  /** Each fault that keeps x from going, with the steps of which one would have to go before. */
  blocks(x, stuck, done, ignored) {
    const old = stuck.flatMap(y => (this.first[x].get(y) ?? []).map(fault => [fault, [y]]));
    const lacks = this.lacks[x].filter(([, ys]) => ys.length > 0 && !ys.some(y => done.includes(y)));
    return [...old, ...lacks].filter(([fault]) => !ignored.has(fault));
  }

  /** A shortest circle of steps that each need the next one first. Steps of one version are one. */
  circle(stuck, done, ignored) {
    const isOne = ys => new Set(ys.map(y => idOf(this.steps[y]))).size === 1;
    const edges = new Map(stuck.map(x => [x, this.blocks(x, stuck, done, ignored).filter(([, ys]) => isOne(ys))]));
    let best = [];
    for (const start of stuck) {
      const found = shortest(start, edges);
      if (found.length > 0 && (best.length === 0 || found.length < best.length)) best = found;
    }
    return best;
  }

  /** Steps of which none can be the first, and all could go if one were done: if there is no circle, since a service
   * that is absent comes in two versions. */
  knot(all, done, ignored) {
    let stuck = all;
    for (const x of all) {
      const freed = new Set([...this.all.filter(y => !stuck.includes(y)), x]);
      let more = stuck.filter(y => y !== x);
      while (more.length > 0) {
        const ready = more.filter(y => !this.isRefused(y, freed, ignored));
        if (ready.length === 0) {
          stuck = more;
          break;
        }
        for (const y of ready) freed.add(y);
        more = more.filter(y => !freed.has(y));
      }
    }
    const isInside = ([, ys]) => ys.every(y => stuck.includes(y));
    const inside = new Map(stuck.map(x => [x, this.blocks(x, stuck, done, ignored).filter(isInside)]));
    const first = new Map([...stuck].reverse().map(x => [idOf(this.steps[x]), x]));
    return stuck.filter(x => first.get(idOf(this.steps[x])) === x).map(x => [x, inside.get(x)[0][0]]);
  }
}

/** A shortest way along these edges from a step back to it. */
function shortest(start, edges) {
  const paths = edges.get(start).map(([fault]) => [[start, fault]]), ends = edges.get(start).map(([, [y]]) => y);
  const seen = new Set(ends);
  for (let at = 0; at < paths.length; at += 1) {
    const [path, end] = [paths[at], ends[at]];
    if (end === start) return path;
    for (const [fault, [y]] of edges.get(end)) {
      if (seen.has(y)) continue;
      seen.add(y);
      paths.push([...path, [end, fault]]);
      ends.push(y);
    }
  }
  return [];
}
