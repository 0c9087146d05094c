// What is shown as a file: as CSV for a table, as text for a ticket.
import { el } from './nodes.js';

/** The text of an element in one line, with versions in full. */
function textOf(it) {
  const copy = it.cloneNode(true);
  for (const each of copy.querySelectorAll('.short')) each.textContent = each.dataset.whole;
  for (const each of copy.querySelectorAll('details > p, button')) each.remove();
  for (const each of copy.querySelectorAll('div, p, li')) each.prepend(' ');
  return copy.textContent.replace(/\s+/g, ' ').trim();
}

const LINES = 'h2, h3, h4, .verdict, .summary, .reasons > li, .act, .steps > li, .pairs li, .when, .trouble, tr, pre';

/** What the view says: of each line its words, of a row of a table its cells. What a filter hides isn't there. */
export function linesOf(view) {
  const shown = [...view.querySelectorAll(LINES)].filter(it => !it.closest('[hidden]'));
  const number = it => (it.parentElement.tagName === 'OL' ? `${[...it.parentElement.children].indexOf(it) + 1}. ` : '');
  return shown.map(it => {
    if (it.tagName === 'TR') return [...it.children].map(textOf);
    if (it.tagName === 'PRE') return [it.textContent];
    const sign = it.tagName === 'LI' ? number(it) || '- ' : '';
    const act = it.matches('.reasons > li') && it.querySelector('.act');
    return [sign + (act ? textOf(it).replace(textOf(act), '').trim() : textOf(it))];
  });
}

/** A cell of CSV (RFC 4180); one that a spreadsheet would take for a formula begins with a quote. */
export function quoted(text) {
  const safe = /^[=+\-@\t\r]/.test(text) ? `'${text}` : text;
  return `"${safe.replace(/"/g, '""')}"`;
}

const csv = lines => lines.map(cells => cells.map(quoted).join(',') + '\r\n').join('');
const ticket = lines => lines.map(cells => cells.join(' | ')).join('\n') + '\n' + location.href + '\n';

/** Lets the browser save a text. */
function save(name, kind, text) {
  const href = URL.createObjectURL(new Blob([text], { type: `${kind};charset=utf-8` }));
  el('a', { href, download: name }).click();
  setTimeout(() => URL.revokeObjectURL(href), 10000);
}

/** The buttons that save what the view shows as they are used. */
export function savings(view) {
  const name = location.hash.slice(2).replace(/[^\w.-]+/g, '-') || 'board';
  const button = (text, done) => {
    const it = el('button', { type: 'button' }, text);
    it.addEventListener('click', () => done(linesOf(view)));
    return it;
  };
  return el('p', { class: 'savings' }, button('Save as CSV', all => save(`${name}.csv`, 'text/csv', csv(all))), ' ',
    button('Save as text', all => save(`${name}.txt`, 'text/plain', ticket(all))));
}
