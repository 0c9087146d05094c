// What desk/plan.js makes of fleets, one a line of JSON on standard input: node plan_page.mjs PLAN, where PLAN is a
// copy of desk/plan.js whose name ends with .mjs.
import { createInterface } from 'node:readline';
import { pathToFileURL } from 'node:url';

const { stepsOf, faultsOf, Plan, Changed } = await import(pathToFileURL(process.argv[2]).href);
const fault = it => [it.consumer, it.consumerVersion, it.provider, it.providerVersion, it.kind];

async function planned({ from, to, gate, matrix, gone }) {
  const asked = [], answer = (all, ...words) => {
    asked.push(words);
    return all[JSON.stringify(words)];
  };
  const of = all => async (...words) => answer(all, ...words), questions = { gate: of(gate), matrix: of(matrix) };
  const { steps, kept } = stepsOf(from, to, gone), faults = await faultsOf(steps, from, to, questions, kept, gone);
  const plan = new Plan({ steps, kept, faults }), { order, isSure } = plan.largest();
  const left = plan.all.filter(x => !order.includes(x));
  return {
    steps: steps.map(it => [it.how, it.pacticipant, it.version, it.instance, it.old?.version ?? null]),
    kept: kept.map(it => [it.pacticipant, it.version, it.instance]),
    order, isSure, asked: asked.length, after: order.map(x => plan.after(x, order)),
    instead: left.map(x => plan.largest(x).order), now: plan.all.map(x => plan.faults(x, new Set()).map(fault)),
    necessary: plan.necessary().map(fault), circles: plan.circles().map(it => it.map(([x, why]) => [x, fault(why)])),
  };
}

for await (const row of createInterface({ input: process.stdin })) {
  try {
    console.log(JSON.stringify(await planned(JSON.parse(row))));
  } catch (it) {
    if (!(it instanceof Changed)) throw it;
    console.log('{"changed":true}');
  }
}
