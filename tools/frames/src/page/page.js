'use strict';
// The run: what each frame changed of the floor's cells. The floor of any frame is put together from
// the nearest floor before it that was kept, and the changes since.
const run = JSON.parse(document.getElementById('run').textContent);
const KEPT_EVERY = 100;
const kept = [];
const byId = id => document.getElementById(id);
const picture = byId('picture'), slider = byId('slider');
let step = 0;

function keepFloors() {
  const cells = new Map();
  run.changes.forEach((changes, k) => {
    apply(cells, changes);
    if (k % KEPT_EVERY === 0) kept.push(new Map(cells));
  });
}

function apply(cells, changes) {
  for (const [name, said] of Object.entries(changes)) {
    if (said === '') cells.delete(name); else cells.set(name, said);
  }
}

function floorAfter(k) {
  const from = Math.floor(k / KEPT_EVERY);
  const cells = new Map(kept[from]);
  for (let at = from * KEPT_EVERY + 1; at <= k; at++) apply(cells, run.changes[at]);
  return cells;
}

// A set in hexadecimal, as the numbers in it.
function members(hex) {
  const set = BigInt('0x' + (hex || '0')), found = [];
  for (let k = 0; k < 64; k++) if (set >> BigInt(k) & 1n) found.push(k);
  return found;
}

// A set without the carts of another.
function without(hex, less) {
  return (BigInt('0x' + hex) & ~BigInt('0x' + less)).toString(16);
}

// --- Words and elements ---

function element(name, className, ...inside) {
  const made = document.createElement(name);
  if (className) made.className = className;
  made.append(...inside);
  return made;
}

function chip(cart, hollow) {
  const made = element('span', `chip q${cart % 8}${hollow ? ' hollow' : ''}`, String(cart));
  made.setAttribute('role', 'img');
  made.setAttribute('aria-label', hollow ? `cart ${cart}, leaving` : `cart ${cart}`);
  return made;
}

// Chips with blanks between, for those who copy them or have them read out.
const apart = made => made.flatMap((one, k) => k ? [' ', one] : [one]);
const chips = hex => apart(members(hex).map(cart => chip(cart, false)));
const none = words => element('p', 'none', words);
const capital = words => words[0].toUpperCase() + words.slice(1);

function correction(name) {
  const [station, number] = name.split(':');
  return `correction ${number} of station ${station}`;
}

function brief(text) {
  return text.length <= 16 ? text : `${text.slice(0, 12)}\u2026 ${text.length / 2} octets`;
}

function parts(cells, letter) {
  const found = [];
  for (const [name, said] of cells) if (name[0] === letter) found.push([name.slice(1), said]);
  return found;
}

// --- The floor. Each part is a list of items: its name, what it is made from, and how. What is made
// --- from the same as before stays, so that a step changes little of the page.

function keep(place, items) {
  const before = place.kept || new Map(), names = new Set(items.map(item => item[0]));
  place.kept = new Map();
  for (const [name, old] of before) if (!names.has(name)) old.made.remove();
  // Those that are left stand in the order of the items.
  let at = place.firstChild;
  for (const [name, said, make] of items) {
    const old = before.get(name);
    const made = old && old.said === said ? old.made : make();
    if (!old) place.insertBefore(made, at);
    else if (old.made !== made) old.made.replaceWith(made);
    at = made.nextSibling;
    place.kept.set(name, { said, made });
  }
}

// A list that may be empty, in which case words stand there.
function keepOr(place, items, words) {
  keep(place, items.length ? items : [['', '', () => none(words)]]);
}

function showStations(cells) {
  const items = [];
  for (let station = 0; station < run.stations; station++) {
    const queue = cells.get(`q${station}`) || '';
    const local = members(cells.get(`s${station}`))
      .map(cart => [cart, cells.get(`c${cart}`).startsWith('leaving')]);
    items.push([station, `${local}|${queue}`, () => stationCard(station, local, queue)]);
  }
  keep(byId('stations'), items);
}

function stationCard(station, local, queue) {
  const card = element('article', 'card', element('h3', '', `Station ${station}`));
  const here = apart(local.map(([cart, leaving]) => chip(cart, leaving)));
  card.append(here.length ? element('p', '', ...here) : none('no cart'));
  const entries = queue.split(' ').filter(Boolean).map(entry => {
    const [name, carts] = entry.split('/');
    return element('li', '', `${correction(name)}, for `, ...chips(carts));
  });
  card.append(entries.length ? element('ol', '', ...entries) : none('nobody waits'));
  card.dataset.station = station;
  return card;
}

// The held corrections, by station and number.
function heldBy(cells) {
  return parts(cells, 'm').sort((a, b) => byName(a[0], b[0]));
}

function byName(a, b) {
  const [i, m] = a.split(':').map(Number), [j, n] = b.split(':').map(Number);
  return i - j || m - n;
}

function showHeld(cells) {
  const items = heldBy(cells).map(([name, said]) => [name, said, () => heldCard(name, said)]);
  keepOr(byId('held'), items, 'No correction is held.');
}

function heldCard(name, said) {
  const [set, acknowledged, received, keeping, text] = said.split(' ');
  const rows = element('dl', 'state');
  const add = (word, carts) => {
    if (members(carts).length) rows.append(element('dt', '', word), element('dd', '', ...chips(carts)));
  };
  add('acknowledged', acknowledged);
  add('received, not yet reported', without(received, acknowledged));
  add('still to receive', without(set, received));
  const at = members(keeping).join(', ');
  rows.append(element('dt', '', 'kept at stations'), element('dd', '', at || 'none yet'));
  const words = capital(correction(name));
  return element('article', 'card', element('h3', '', `${words} `, element('code', 'text', brief(text))), rows);
}

function whereIs(said) {
  if (!said) return [element('span', 'tag', 'back at the factory')];
  const [place, station, to, steady] = said.split(' ');
  const words = {
    at: `at station ${station}`,
    leaving: `leaving station ${station} for ${to}`,
    travelling: `on its way to station ${to}`,
  }[place];
  return steady === '1' ? [words] : [words + ' ', element('span', 'tag', 'not steady')];
}

// When a cart entered last, up to this frame; undefined if it has not.
function enteredLast(cart) {
  const entries = run.entries.filter(([row, who]) => who === cart && row <= step);
  return entries.length ? entries[entries.length - 1][0] : undefined;
}

// What a cart received since its latest entry, the earliest first. A retirement empties no list, an entry does.
function receivedBy(cart, entered) {
  return run.receipts.filter(([row, who]) => who === cart && row >= entered && row <= step);
}

function showCarts(cells) {
  const held = heldBy(cells).map(([name, said]) => {
    const [set, , received, , text] = said.split(' ');
    return { name, text, waiting: new Set(members(without(set, received))) };
  });
  const items = [], outside = [];
  for (let cart = 0; cart < run.carts; cart++) {
    const said = cells.get(`c${cart}`) || '', entered = enteredLast(cart);
    if (entered === undefined) {
      outside.push(cart);
      continue;
    }
    const owed = held.filter(({ waiting }) => waiting.has(cart));
    const received = receivedBy(cart, entered), last = received[received.length - 1];
    const fresh = Boolean(last) && last[0] === step;
    const from = `${said}|${owed.map(({ name }) => name)}|${last ? last[0] : ''}|${received.length}|${fresh}`;
    items.push([cart, from, () => cartRow(cart, said, received, owed)]);
  }
  keep(byId('carts'), items);
  byId('table').hidden = items.length === 0;
  byId('outside').textContent = outside.length === run.carts ? 'No cart has entered.'
    : outside.length ? `Not entered yet: ${outside.join(', ')}` : '';
}

function cartRow(cart, said, received, owed) {
  const correctionLine = (name, text, row) => {
    const short = text.length <= 16 ? text : `${text.slice(0, 14)}\u2026`;
    const made = element('div', row === step ? 'fresh' : '', `${name} `, element('code', 'text', short));
    made.title = `${correction(name)}: ${text}`;
    return made;
  };
  const row = element('tr', '',
    element('td', '', chip(cart, false)),
    element('td', '', ...whereIs(said)),
    element('td', '', ...few(received.map(([at, , name, text]) => correctionLine(name, text, at)))),
    element('td', 'owed', ...owed.map(({ name, text }) => correctionLine(name, text))));
  row.dataset.cart = cart;
  return row;
}

// Of a long list the last ones, and how many stand before them.
function few(list) {
  const shown = 8;
  if (list.length <= shown) return list;
  const summary = element('summary', '', `${list.length - shown} before`);
  return [element('details', '', summary, ...list.slice(0, -shown)), ...list.slice(-shown)];
}

function onLine(record) {
  const said = record.slice(1), [name, carts] = said.split('/');
  switch (record[0]) {
    case 'm': return [correction(name)];
    case 'k': return [`acknowledgement of ${correction(name)} by `, ...chips(carts)];
    case 'd': return [`delete of ${correction(name)}`];
    case 'g': return [chip(Number(said), false), ' has come'];
    default: return [chip(Number(said), false), ' is handed over'];
  }
}

function showLines(cells) {
  const numbers = name => name.split('-').map(Number);
  const order = (a, b) => numbers(a[0])[0] - numbers(b[0])[0] || numbers(a[0])[1] - numbers(b[0])[1];
  const items = parts(cells, 'l').sort(order).map(([name, said]) => [name, said, () => {
    const [from, to] = numbers(name);
    const records = said.split(' ').map(record => element('li', '', ...onLine(record)));
    return element('article', 'card', element('h3', '', `Station ${from} to ${to}`), element('ol', '', ...records));
  }]);
  keepOr(byId('lines'), items, 'Every line is empty.');
}

function showGroups(cells) {
  const items = parts(cells, 'g').sort((a, b) => a[0] - b[0]).map(([group, carts]) =>
    [group, carts, () => element('p', '', `Group ${group}: `, ...chips(carts))]);
  keepOr(byId('groups'), items, 'No group is defined.');
}

// --- The picture: of a long run only the rows that can be seen, and some around them ---

const AROUND = 40;
let drawn = [0, -1];
// How much of the picture is seen, measured when the window changes: asking the browser at each step
// would make it lay out the page twice.
let seen = 0, scrolled = 0;

function drawRows() {
  const height = run.picture.row;
  const first = Math.max(0, Math.floor(scrolled / height));
  const last = first + Math.ceil(seen / height);
  if (drawn[0] <= first && last <= drawn[1]) return;
  drawn = [first - AROUND, last + AROUND];
  const [from, to] = drawn;
  byId('shapes').innerHTML = run.picture.shapes.filter(([a, b]) => a <= to && b >= from).map(shape => shape[2]).join('');
  markNow();
}

function markNow() {
  for (const arrow of byId('shapes').querySelectorAll('g.now')) arrow.classList.remove('now');
  for (const arrow of byId('shapes').querySelectorAll(`g[data-p="${step}"], g[data-h="${step}"]`)) arrow.classList.add('now');
}

function setUpPicture() {
  const { width, narrow, row, lines, names } = run.picture;
  const height = run.frames.length * row + 12;
  // Where the words beside the rows would not fit, they are left out: the sentence is at the top.
  const fit = () => {
    const wide = picture.clientWidth >= width ? width : narrow;
    for (const id of ['heads', 'drawing']) byId(id).setAttribute('width', wide);
    seen = picture.clientHeight - byId('names').offsetHeight;
  };
  byId('heads').innerHTML = names;
  byId('fixed').innerHTML = lines;
  byId('drawing').setAttribute('height', height);
  byId('behind').innerHTML = `<rect width="100%" height="${row}"/>`;
  fit();
  addEventListener('resize', () => { fit(); drawn = [0, -1]; drawRows(); });
  picture.addEventListener('scroll', () => { scrolled = picture.scrollTop; drawRows(); }, { passive: true });
  byId('drawing').addEventListener('click', event => {
    go(Math.floor((event.clientY - byId('drawing').getBoundingClientRect().top) / row));
  });
}

function showRow() {
  const row = run.picture.row, y = step * row;
  byId('behind').firstChild.setAttribute('y', y);
  const before = scrolled;
  if (y < scrolled + 2 * row) scrolled = Math.max(0, y - seen / 3);
  else if (y > scrolled + seen - 3 * row) scrolled = Math.max(0, y - seen * 2 / 3);
  if (scrolled !== before) picture.scrollTop = scrolled;
  drawRows();
  markNow();
}

// --- Going from frame to frame ---

function show() {
  // First, since scrolling lays out what has changed.
  showRow();
  const cells = floorAfter(step), [printed, sentence, refused] = run.frames[step];
  slider.value = step;
  slider.setAttribute('aria-valuetext', `frame ${step}: ${sentence}`);
  byId('where').textContent = `frame ${step} of ${run.frames.length - 1}`;
  byId('sentence').replaceChildren(element('code', '', printed), ' ', sentence);
  byId('sentence').className = refused ? 'refused' : '';
  byId('first').disabled = byId('back').disabled = step === 0;
  byId('next').disabled = byId('last').disabled = step === run.frames.length - 1;
  showStations(cells);
  showHeld(cells);
  showCarts(cells);
  showLines(cells);
  showGroups(cells);
}

function go(to) {
  const next = Math.min(Math.max(to, 0), run.frames.length - 1);
  if (next === step) return;
  step = next;
  show();
}

const keys = {
  ArrowLeft: () => step - 1, ArrowRight: () => step + 1, Home: () => 0, End: () => run.frames.length - 1,
  PageUp: () => step - 10, PageDown: () => step + 10,
};

function setUpControls() {
  slider.addEventListener('input', () => go(Number(slider.value)));
  byId('first').addEventListener('click', () => go(0));
  byId('back').addEventListener('click', () => go(step - 1));
  byId('next').addEventListener('click', () => go(step + 1));
  byId('last').addEventListener('click', () => go(run.frames.length - 1));
  addEventListener('keydown', event => {
    if (!keys[event.key] || event.ctrlKey || event.altKey || event.metaKey || event.shiftKey) return;
    event.preventDefault();
    go(keys[event.key]());
  });
}

if (run.frames.length) {
  keepFloors();
  setUpControls();
  setUpPicture();
  show();
} else {
  byId('sentence').textContent = 'The run has no frames.';
}
