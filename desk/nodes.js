// What a view is made of. A text becomes a text node, and never markup.

/** An element; each child that is a text becomes a text node. */
export function el(tag, attributes, ...children) {
  const it = document.createElement(tag);
  for (const [key, value] of Object.entries(attributes)) it.setAttribute(key, value);
  it.append(...children.flat(Infinity));
  return it;
}

/** A name as text, apart from the direction of the text around it; what can't be seen in it is said beside it. */
export function named(text) {
  const it = el('bdi', {});
  it.textContent = text;
  const unseen = [...text].filter(each => /[\p{C}\p{Z}]/u.test(each) && each !== ' ');
  if (unseen.length === 0) return it;
  const codes = unseen.map(each => 'U+' + each.codePointAt(0).toString(16).toUpperCase().padStart(4, '0'));
  return el('span', {}, it, el('small', {}, ` (with ${[...new Set(codes)].join(', ')})`));
}

/** A sentence: what is put into it is an element, or a name. */
const shown = value => (value instanceof Node ? value : named(value));
export const say = (texts, ...values) =>
  texts.flatMap((text, at) => (at in values ? [text, shown(values[at])] : [text]));

// A version that is a hash, and of how many digits it is shown if they say which one it is.
const HASH = /^[0-9a-f]{20,}$/, DIGITS = 8;

/** The number of a version. Of a hash 8 digits, or as many as tell it from these others of its service; the whole is
 * its title, and what is copied. */
export function numbered(number, others = []) {
  let most = HASH.test(number) ? DIGITS : number.length;
  while (most < number.length && others.some(it => it !== number && it.startsWith(number.slice(0, most)))) most += 1;
  if (most === number.length) return named(number);
  return el('bdi', { class: 'short', title: number, 'data-whole': number }, number.slice(0, most));
}

export const version = (pacticipant, number, others) =>
  el('span', { class: 'version' }, named(pacticipant), ' ', numbered(number, others));

/** The same, each told from the others of its service among these. */
export function versionsAmong(all) {
  const numbers = new Map();
  for (const it of all) {
    if (!numbers.has(it.pacticipant)) numbers.set(it.pacticipant, new Set());
    if (HASH.test(it.version ?? '')) numbers.get(it.pacticipant).add(it.version);
  }
  return (pacticipant, number) => version(pacticipant, number, [...numbers.get(pacticipant) ?? []]);
}

// What is shown by less than it is, but for what a filter hides or what is folded.
const SHORT = '.short:not([hidden] *, details:not([open]) > p *)';

/** What is copied of a page is whole, where it shows less. */
export function copied(event) {
  const chosen = document.getSelection();
  if (!chosen || chosen.isCollapsed) return;
  const part = chosen.getRangeAt(0).cloneContents(), shorts = part.querySelectorAll(SHORT);
  const around = chosen.getRangeAt(0).commonAncestorContainer, inside = around.parentElement?.closest('.short');
  if (shorts.length === 0 && !inside) return;
  let text = inside && shorts.length === 0 ? inside.dataset.whole : chosen.toString(), at = 0;
  for (const { textContent: short, dataset: { whole } } of shorts) {
    const from = text.indexOf(short, at);
    if (short === '' || from < 0) continue;
    at = from + whole.length;
    text = text.slice(0, from) + whole + text.slice(from + short.length);
  }
  event.clipboardData.setData('text/plain', text);
  event.preventDefault();
}

export const address = (...words) => '#/' + words.map(encodeURIComponent).join('/');
export const link = (child, ...words) => el('a', { href: address(...words) }, child);
export const heading = (...children) => el('h2', { tabindex: '-1' }, ...children);
export const tag = (text, kind = '') => el('span', { class: 'tag ' + kind }, text);
export const count = (number, one) => `${number} ${one}${number === 1 ? '' : 's'}`;

/** A table. Its roles are said, since a narrow page shows its rows as lists. */
export function table(caption, heads, rows) {
  const columns = heads.map(it => el('th', { scope: 'col', role: 'columnheader' }, it));
  const td = (it, at) => {
    const cell = it instanceof Element && it.tagName === 'TD' ? it : el('td', {}, el('div', {}, it));
    cell.setAttribute('role', 'cell');
    cell.dataset.column = columns[at + 1].textContent;
    return cell;
  };
  const row = ([first, ...rest]) =>
    el('tr', { role: 'row' }, el('th', { scope: 'row', role: 'rowheader' }, first), rest.map(td));
  const top = el('thead', { role: 'rowgroup' }, el('tr', { role: 'row' }, columns));
  const body = el('tbody', { role: 'rowgroup' }, rows.map(row));
  const it = el('table', { role: 'table' }, el('caption', {}, caption), top, body);
  return el('div', { class: 'wide', role: 'region', tabindex: '0', 'aria-label': caption }, it);
}

// Forms

/** A form whose words are given to what is done. */
export function form(button, fields, done) {
  const labels = fields.map(it => el('label', {}, it.id, it));
  const it = el('form', { autocomplete: 'off' }, labels, el('button', {}, button));
  it.addEventListener('submit', event => {
    event.preventDefault();
    done(...fields.map(each => each.value));
  });
  return it;
}

export function input(id, value = '', attributes = {}) {
  const usual = { id, required: '', autocomplete: 'off', spellcheck: 'false', autocapitalize: 'none', maxlength: 128 };
  const it = el('input', { ...usual, ...attributes });
  it.value = value;
  return it;
}

export function choice(id, values, value) {
  const it = el('select', { id }, values.map(each => el('option', {}, each)));
  if (value) it.value = value;
  return it;
}

/** A field by whose text only the rows or lines that have it are shown, with what else hides them; `apply` looks at all
 * of them again, or at some that have changed. */
export function filter(parts, { rows, holders = '', hides = () => false, hint }) {
  const all = parts.flatMap(it => [...it.querySelectorAll(rows)]), said = el('small', { role: 'status' });
  const outer = holders ? parts.flatMap(it => [it, ...it.querySelectorAll(holders)]) : [];
  const field = input('filter', '', { placeholder: hint });
  field.removeAttribute('required');
  const team = it => it.closest('.todo')?.querySelector('h4').textContent ?? '';
  const wholes = it => [...it.querySelectorAll('.short')].map(each => each.dataset.whole);
  const words = it => [it.textContent, it.dataset.words ?? '', team(it), ...wholes(it)].join(' ').toLowerCase();
  const apply = (some = all) => {
    const wanted = field.value.toLowerCase();
    for (const it of some) it.hidden = hides(it) || !words(it).includes(wanted);
    for (const it of outer) it.hidden = !it.querySelector(`:is(${rows}):not([hidden])`);
    const left = all.filter(it => !it.hidden).length;
    said.textContent = left < all.length ? `${left} of ${count(all.length, 'line')}` : '';
  };
  field.addEventListener('input', () => apply());
  return { node: el('div', { class: 'filter' }, el('label', {}, 'filter', field), said), apply };
}
