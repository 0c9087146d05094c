// The place of the page: its address, and the addresses that lead out of it.
import { address, el } from './nodes.js';

let again = () => {};

/** What is called if the address is the one that is there already. */
export function onSame(done) {
  again = done;
}

export function go(...words) {
  if (location.hash === address(...words)) again();
  else location.hash = address(...words);
}

/** The words of the address, the first of which names the view; no view is called ? */
export function words() {
  try {
    return (location.hash.slice(2) || 'board').split('/').map(decodeURIComponent);
  } catch {
    return ['?'];
  }
}

/** A link to the build of a version, if desk.json has a template of such addresses. */
export function buildOf({ builds }, { pacticipant, version }) {
  if (typeof builds !== 'string' || !/^https?:\/\//.test(builds)) return '';
  const names = { pacticipant, version };
  const href = builds.replace(/\{(pacticipant|version)\}/g, (_, name) => encodeURIComponent(names[name]));
  return [' ', el('a', { href, rel: 'noreferrer' }, 'its build')];
}
