'use strict';
// What the page does beyond its text: it shows the chosen statement's state beside the source, with a picture.
const SVG = 'http://www.w3.org/2000/svg';
const NAME = '[A-Za-z_]\\w*(?:~\\d+)?';
const WIDTH = 360, TALL = 280, FLAT = 110, LEFT = 54, RIGHT = 12, TOP = 22, BOTTOM = 34;
const panel = document.getElementById('panel');
const domain = document.body.dataset.domain;
let pinned = null, shown = null, wantedPath = null, wantedNames = null;

function make(kind, attributes, ...children) {
  const element = kind.startsWith('svg:') ? document.createElementNS(SVG, kind.slice(4)) : document.createElement(kind);
  for (const [name, value] of Object.entries(attributes)) element.setAttribute(name, value);
  element.append(...children);
  return element;
}

// Rows c0 + c1*x + c2*y >= 0 and homogeneous vectors (d, x, y), both as lists of whole numbers in lowest terms.

const sign = (value) => (value > 0n ? 1 : value < 0n ? -1 : 0);
const absolute = (value) => (value < 0n ? -value : value);
const greatest = (a, b) => { while (b) [a, b] = [b, a % b]; return absolute(a); };
const dot = (a, b) => a[0] * b[0] + a[1] * b[1] + a[2] * b[2];
const cross = (a, b) => [a[1] * b[2] - a[2] * b[1], a[2] * b[0] - a[0] * b[2], a[0] * b[1] - a[1] * b[0]];
const negated = (a) => a.map((value) => -value);

function lowest(vector) {
  const divisor = vector.reduce(greatest, 0n);
  return divisor > 1n ? vector.map((value) => value / divisor) : vector;
}

function distinct(vectors) {
  return [...new Map(vectors.map((vector) => [vector.join(), vector])).values()];
}

// A generator's vectors over two variables; the second name may be missing.
function vectorsOf(text, names) {
  const [kind, ...words] = text.split(' ');
  const values = new Map(words.map((word) => word.split('=')));
  const [first, second] = names.map((name) => (values.get(name) || '0').split('/').map(BigInt));
  const [below, beside] = [first[1] || 1n, second[1] || 1n];
  const vector = lowest([kind === 'point' ? below * beside : 0n, first[0] * beside, second[0] * below]);
  if (kind !== 'point' && !vector[1] && !vector[2]) return [];
  return kind === 'line' ? [vector, negated(vector)] : [vector];
}

// The rows that bound the set of these vectors.
function facetsOf(vectors) {
  const helpers = [[0n, 1n, 0n], [0n, 0n, 1n]], found = [];
  vectors.forEach((first, index) => {
    for (const second of [...vectors.slice(index + 1), ...helpers]) {
      const row = lowest(cross(first, second));
      if (!row[1] && !row[2]) continue;
      const signs = vectors.map((vector) => sign(dot(row, vector)));
      if (signs.every((value) => value >= 0)) found.push(row);
      if (signs.every((value) => value <= 0)) found.push(negated(row));
    }
  });
  return withoutRedundant(distinct(found), vectors);
}

// A row that touches the set in one corner only bounds nothing there where two others meet in it.
function withoutRedundant(rows, vectors) {
  const flat = rows.some((row) => vectors.every((vector) => dot(row, vector) === 0n));
  if (flat) return rows;
  return rows.filter((row) => vectors.filter((vector) => dot(row, vector) === 0n).length > 1);
}

// The rows of a text over these two names alone; none where it has another one.
function rowsOf(text, names) {
  const found = text.match(/^(.*) (=|>=|<=) (-?\d+)$/);
  if (!found) return [];
  const row = [-BigInt(found[3]), 0n, 0n];
  const terms = new RegExp(`([-+]?)(?:(\\d+)\\*)?(${NAME})`, 'g');
  for (const [, minus, factor, name] of found[1].replaceAll(' ', '').matchAll(terms)) {
    if (!names.includes(name)) return [];
    row[1 + names.indexOf(name)] = BigInt(minus === '-' ? -1 : 1) * BigInt(factor || 1);
  }
  if (found[2] === '=') return [row, negated(row)];
  return [found[2] === '>=' ? row : negated(row)];
}

// The corners of a set that rows bound.
function cornersOf(rows) {
  const found = [];
  rows.forEach((first, index) => rows.slice(index + 1).forEach((second) => {
    let point = cross(first, second);
    if (point[0] === 0n) return;
    if (point[0] < 0n) point = negated(point);
    if (rows.every((row) => dot(row, point) >= 0n)) found.push(lowest(point));
  }));
  return distinct(found);
}

function fraction(above, below) {
  const divisor = greatest(above, below);
  return below === divisor ? `${above / divisor}` : `${above / divisor}/${below / divisor}`;
}

function rowText(row, names, isEquality) {
  const lead = sign(row[1]) || sign(row[2]);
  const terms = [1, 2].filter((index) => row[index]).map((index) => {
    const value = row[index] * BigInt(lead), size = absolute(value);
    return [value < 0n ? '-' : '+', (size === 1n ? '' : `${size}*`) + names[index - 1]];
  });
  const left = terms.map(([mark, term], index) => (index ? ` ${mark} ` : mark === '-' ? '-' : '') + term).join('');
  return `${left} ${isEquality ? '=' : lead > 0 ? '>=' : '<='} ${-row[0] * BigInt(lead)}`;
}

function rowTexts(rows, names) {
  const keys = new Set(rows.map((row) => row.join()));
  return [...new Set(rows.map((row) => {
    const isEquality = keys.has(negated(row).join());
    return rowText(isEquality && (sign(row[1]) || sign(row[2])) < 0 ? negated(row) : row, names, isEquality);
  }))];
}

// The window: numbers from here on are drawn, and may be rounded.

const coordinates = (vector) => [Number(vector[1]) / Number(vector[0]), Number(vector[2]) / Number(vector[0])];

function span(values) {
  const known = values.length ? values : [0];
  const [low, high] = [Math.min(...known), Math.max(...known)];
  const margin = Math.max((high - low) * 0.25, low === high ? Math.max(2, Math.abs(low) * 0.1) : 0, 1);
  return [low - margin, high + margin];
}

function windowOf(sets) {
  const points = sets.flatMap((set) => (set.corners.length ? set.corners : set.marks)).map(coordinates);
  return { x: span(points.map((point) => point[0])), y: span(points.map((point) => point[1])) };
}

const value = (row, point) => Number(row[0]) + Number(row[1]) * point[0] + Number(row[2]) * point[1];
const most = (values) => Math.max(...values.map(Math.abs));
const slack = (row, view) => 1e-9 * (Math.abs(Number(row[0])) + Math.abs(Number(row[1])) * most(view.x)
  + Math.abs(Number(row[2])) * most(view.y));

// The polygon, cut along a row.
function cut(polygon, row, least) {
  const found = [];
  polygon.forEach((point, index) => {
    const following = polygon[(index + 1) % polygon.length];
    const [here, there] = [value(row, point), value(row, following)];
    if (here >= -least) found.push(point);
    if ((here < -least && there > least) || (here > least && there < -least)) {
      const part = here / (here - there);
      found.push([point[0] + part * (following[0] - point[0]), point[1] + part * (following[1] - point[1])]);
    }
  });
  return found;
}

function polygonOf(rows, view) {
  const [[left, right], [low, high]] = [view.x, view.y];
  let polygon = [[left, low], [right, low], [right, high], [left, high]];
  for (const row of rows) polygon = cut(polygon, row, slack(row, view));
  return polygon;
}

// The stretch of a row's line that lies in the window and in the set.
function edgeOf(row, rows, view) {
  const [a, b] = [Number(row[1]), Number(row[2])], size = a * a + b * b;
  const foot = [-Number(row[0]) * a / size, -Number(row[0]) * b / size];
  let [from, to] = [-Infinity, Infinity];
  const walls = [[-view.x[0], 1, 0], [view.x[1], -1, 0], [-view.y[0], 0, 1], [view.y[1], 0, -1]];
  for (const other of [...walls, ...rows]) {
    const rate = Number(other[2]) * a - Number(other[1]) * b, here = value(other, foot);
    if (Math.abs(rate) < 1e-9 * (Math.abs(Number(other[1])) + Math.abs(Number(other[2]))) * Math.sqrt(size)) {
      if (here < -1e-6 * (Math.abs(Number(other[0])) + 1)) return null;
    } else if (rate > 0) from = Math.max(from, -here / rate);
    else to = Math.min(to, -here / rate);
  }
  const at = (step) => [foot[0] - step * b, foot[1] + step * a];
  return from < to ? [at(from), at(to)] : null;
}

function stepOf(length) {
  const rough = length / 5, power = 10 ** Math.floor(Math.log10(rough));
  return power * ([1, 2, 5, 10].find((factor) => factor * power >= rough) || 10);
}

function numberText(number) {
  if (Math.abs(number) >= 1e7) return number.toExponential(Math.abs(number) >= 1e9 ? 1 : 2).replace('e+', 'e');
  return String(Number(number.toFixed(6))).replace('-', '−');
}

// The picture.

function scaleOf(view) {
  const [[left, right], [low, high]] = [view.x, view.y];
  return ([x, y]) => [LEFT + (x - left) / (right - left) * (WIDTH - LEFT - RIGHT),
    view.height - BOTTOM - (y - low) / (high - low) * (view.height - TOP - BOTTOM)];
}

const line = (kind, [x1, y1], [x2, y2]) => make('svg:line', { class: kind, x1, y1, x2, y2 });

function ticks(svg, view, scale, axis) {
  const [low, high] = axis ? view.y : view.x, step = stepOf(high - low);
  for (let number = Math.ceil(low / step) * step; number <= high; number += step) {
    const near = Math.abs(number) < step / 1e6 ? 0 : number;
    const [from, to] = axis ? [[view.x[0], near], [view.x[1], near]] : [[near, view.y[0]], [near, view.y[1]]];
    const at = scale(from);
    svg.append(line(near === 0 ? 'zero' : 'grid', at, scale(to)));
    const place = axis ? { x: LEFT - 5, y: at[1] + 4, 'text-anchor': 'end' }
      : { x: at[0], y: view.height - BOTTOM + 14, 'text-anchor': 'middle' };
    svg.append(make('svg:text', place, numberText(near)));
  }
}

function arrow(from, to, kind) {
  const angle = Math.atan2(to[1] - from[1], to[0] - from[0]);
  const side = (turn) => `${to[0] - 9 * Math.cos(angle + turn)},${to[1] - 9 * Math.sin(angle + turn)}`;
  return make('svg:polygon', { class: `tip ${kind}`, points: `${to[0]},${to[1]} ${side(0.4)} ${side(-0.4)}` });
}

function drawSet(svg, set, index, view, scale) {
  const kind = `part${index % 4}`;
  const polygon = polygonOf(set.rows, view);
  const points = polygon.map((point) => scale(point).join()).join(' ');
  svg.append(make('svg:polygon', { class: `area ${kind}`, points }));
  for (const row of set.rows) {
    const edge = edgeOf(row, set.rows, view);
    if (!edge) continue;
    const ends = edge.map(scale);
    svg.append(line(`edge ${kind}`, ...ends));
    edge.forEach((end, which) => {
      const isCorner = set.corners.some((corner) => {
        const at = scale(coordinates(corner));
        return Math.hypot(at[0] - ends[which][0], at[1] - ends[which][1]) < 0.5;
      });
      if (!isCorner) svg.append(arrow(ends[1 - which], ends[which], kind));
    });
  }
  for (const corner of set.corners) {
    const [cx, cy] = scale(coordinates(corner));
    const [x, y] = [fraction(corner[1], corner[0]), fraction(corner[2], corner[0])];
    const title = make('svg:title', {}, `${x}, ${y}`);
    svg.append(make('svg:circle', { class: `corner ${kind}`, cx, cy, r: 3.5, 'data-x': x, 'data-y': y }, title));
  }
}

// The example of a state, as a cross.
function drawExample(svg, example, names, scale) {
  const values = new Map(example.split(' ').map((word) => word.split('=')));
  if (names.some((name) => name !== '' && !values.has(name))) return;
  const [x, y] = scale(names.map((name) => Number(name === '' ? 0 : values.get(name))));
  const title = make('svg:title', {}, `the example, ${example}`);
  svg.append(make('svg:path', { class: 'example', d: `M${x - 5},${y - 5}l10,10m0,-10l-10,10` }, title));
}

function pictureOf(sets, names, example) {
  const view = windowOf(sets);
  if (names[1] === '') view.y = [-1, 1];
  view.height = names[1] === '' ? FLAT : TALL;
  const scale = scaleOf(view);
  const label = `the value over ${names.filter((name) => name).join(' and ')}`;
  const svg = make('svg:svg', { viewBox: `0 0 ${WIDTH} ${view.height}`, role: 'img', 'aria-label': label });
  ticks(svg, view, scale, 0);
  if (names[1] !== '') ticks(svg, view, scale, 1);
  const [width, height] = [WIDTH - LEFT - RIGHT, view.height - TOP - BOTTOM];
  svg.append(make('svg:rect', { class: 'frame', x: LEFT, y: TOP, width, height }));
  sets.forEach((set, index) => drawSet(svg, set, index, view, scale));
  if (example) drawExample(svg, example, names, scale);
  const name = (x, y, anchor, text) => make('svg:text', { class: 'name', x, y, 'text-anchor': anchor }, text);
  svg.append(name(WIDTH - RIGHT, view.height - 5, 'end', `${names[0]} →`));
  if (names[1] !== '') svg.append(name(LEFT, TOP - 8, 'middle', `↑ ${names[1]}`));
  return svg;
}

// A set of one part over two names: its rows, its corners, and points that the window shows where it has none.
function setOf(part, names) {
  const texts = (kind) => [...part.querySelectorAll(`.${kind} li:not(.more, .any)`)].map((item) => item.textContent);
  const generators = texts('generators');
  const own = texts('rows').flatMap((text) => rowsOf(text, names));
  const isCut = part.querySelector('.generators .more') !== null || (generators.length === 0 && domain === 'poly');
  if (domain === 'poly' && !isCut) {
    const vectors = distinct(generators.flatMap((text) => vectorsOf(text, names)));
    const rows = facetsOf(vectors), corners = cornersOf(names[1] === '' ? [...rows] : rows);
    return { rows, corners, marks: vectors.filter((vector) => vector[0] > 0n), isCut };
  }
  const rows = names[1] === '' ? [...own, [0n, 0n, 1n], [0n, 0n, -1n]] : own;
  const foot = (row) => [row[1] * row[1] + row[2] * row[2], -row[0] * row[1], -row[0] * row[2]];
  const marks = own.map(foot).filter((mark) => mark[0] > 0n);
  return { rows, corners: cornersOf(rows), marks, isCut };
}

function namesOf(parts) {
  const found = new Set();
  for (const item of parts.flatMap((part) => [...part.querySelectorAll('li:not(.more, .any)')])) {
    const isGenerator = item.parentElement.className === 'generators';
    const pattern = isGenerator ? `(${NAME})=` : `(?<![\\w*~])(?:\\d+\\*)?(${NAME})`;
    for (const [, name] of item.textContent.matchAll(new RegExp(pattern, 'g'))) found.add(name);
  }
  return [...found];
}

function caption(names, all, isCut) {
  const over = names[1] === '' ? names[0] : `${names[0]} and ${names[1]}`;
  const wide = `Drawn from the rows over ${over} alone: it may be wider than the projection`;
  if (isCut) return `${wide}, since not all generators stand in this page.`;
  if (domain === 'poly' && all.length > 2) return `The projection to ${over} of ${all.length} variables.`;
  if (domain === 'oct' && document.body.dataset.flagged !== '0') return `${wide}, since the report is flagged.`;
  if (domain !== 'poly') return `The rows over ${over} alone.`;
  return '';
}

function legendOf(sets, names, example) {
  const list = make('ul', { class: 'legend' });
  sets.forEach((set, index) => {
    const rows = names[1] === '' ? set.rows.filter((row) => row[1]) : set.rows;
    const text = rowTexts(rows, names).join(', ') || 'any values';
    list.append(make('li', { class: `part${index % 4}` }, (sets.length > 1 ? `part ${index + 1}: ` : '') + text));
  });
  if (example) list.append(make('li', { class: 'cross' }, `the example ${example}`));
  return list;
}

function selectOf(label, options, chosen, change) {
  const select = make('select', { 'aria-label': label });
  for (const value of options) {
    select.append(make('option', { value, ...(value === chosen && { selected: '' }) }, value));
  }
  select.addEventListener('change', () => change(select.value));
  return select;
}

// Which two variables are drawn: those that were picked, else those that the statement names, else the newest ones.
function chosenNames(all, statement) {
  const words = new Set(statement.match(new RegExp(NAME, 'g')) || []);
  const newest = [...all].reverse();
  const wanted = (wantedNames || []).filter((name) => all.includes(name));
  const order = [...wanted, ...newest.filter((name) => words.has(name)), ...newest];
  const two = [...new Set(order)].slice(0, 2);
  return wantedNames?.every((name) => all.includes(name)) ? two : all.filter((name) => two.includes(name));
}

function figureOf(parts, statement, example, redraw) {
  const all = namesOf(parts);
  if (!all.length) return null;
  const names = chosenNames(all, statement);
  const pick = (index) => (name) => {
    const other = names[1 - index];
    wantedNames = index ? [other === name ? names[1] : other, name] : [name, other === name ? names[0] : other];
    redraw(index);
  };
  const figure = make('figure', {});
  if (all.length > 1) {
    figure.append(make('label', {}, 'across ', selectOf('across', all, names[0], pick(0))),
      make('label', {}, 'up ', selectOf('up', all, names[1], pick(1))));
  }
  const drawn = all.length > 1 ? names : [names[0], ''];
  const sets = parts.map((part) => setOf(part, drawn));
  figure.append(pictureOf(sets, drawn, example), legendOf(sets, drawn, example),
    make('figcaption', {}, caption(drawn, all, sets.some((set) => set.isCut))));
  return figure;
}

// The panel.

function stateOf(point) {
  const same = point.querySelector('.same');
  return same ? document.getElementById(`p${same.dataset.same}`) : point;
}

function fill(article) {
  const points = [...article.querySelectorAll('.point')];
  const wanted = points.find((one) => one.dataset.path === wantedPath);
  const point = wanted || points.find((one) => one.querySelector('.unknown')) || points[0];
  const head = make('h2', {}, ...[...article.querySelector('h3').childNodes].map((node) => node.cloneNode(true)));
  panel.replaceChildren(head);
  if (points.length > 1) {
    const paths = points.map((one) => one.dataset.path);
    const again = (path) => { wantedPath = path; fill(article); panel.querySelector('select').focus(); };
    const select = selectOf('path of calls', paths, point.dataset.path, again);
    panel.append(make('p', {}, make('label', {}, `${points.length} paths of calls: `, select)));
  }
  for (const child of point.children) {
    if (!child.matches('.same, .part, .or, .path, .count')) panel.append(child.cloneNode(true));
  }
  panel.append(make('p', { class: 'count' }, 'what is known just before it:'));
  const parts = [...stateOf(point).querySelectorAll('.part')];
  for (const child of stateOf(point).children) {
    if (child.matches('.part, .or, .count')) panel.append(child.cloneNode(true));
  }
  const redraw = (index) => { fill(article); panel.querySelectorAll('figure select')[index].focus(); };
  const example = point.querySelector('.example')?.textContent.split(' is not excluded')[0];
  const figure = figureOf(parts, article.querySelector('h3 code').textContent, example, redraw);
  if (figure) panel.append(figure);
}

function show(link) {
  if (!link || link === shown) return;
  const key = link.getAttribute('href');
  document.querySelectorAll('.chosen').forEach((one) => one.classList.remove('chosen'));
  document.querySelectorAll(`.at[href="${key}"]`).forEach((one) => one.classList.add('chosen'));
  shown = link;
  fill(document.getElementById(key.slice(1)));
  panel.hidden = false;
}

function pin(link) {
  pinned = link;
  show(link);
}

const linkOf = (key) => document.querySelector(`.at[href="${key}"]:not([tabindex])`);
const source = document.getElementById('source');

function move(event) {
  const links = [...source.querySelectorAll('.at:not([tabindex])')];
  const index = links.indexOf(document.activeElement);
  const step = { ArrowDown: 1, ArrowUp: -1 }[event.key];
  if (!step || index < 0 || !links[index + step]) return;
  event.preventDefault();
  links[index + step].focus();
}

function begin() {
  source.addEventListener('pointerover', (event) => {
    if (event.pointerType === 'mouse') show(event.target.closest('.at') || shown);
  });
  source.addEventListener('pointerleave', () => show(pinned));
  source.addEventListener('focusin', (event) => { if (event.target.closest('.at')) pin(event.target.closest('.at')); });
  source.addEventListener('keydown', move);
  document.addEventListener('click', (event) => {
    const link = event.target.closest('a[href^="#a"]');
    if (!link || !linkOf(link.getAttribute('href'))) return;
    event.preventDefault();
    const own = linkOf(link.getAttribute('href'));
    pin(own);
    if (!source.contains(link)) own.focus();
    own.scrollIntoView({ block: 'nearest' });
  });
  document.getElementById('states').open = false;
  source.before(make('p', { class: 'hint' },
    'Point at a statement, tap it, or move with Tab and the arrow keys, to see what holds just before it.'));
  const kinds = ['.sign:has(.unknown)', '.sign[href]', '.at'];
  const first = kinds.map((kind) => source.querySelector(kind)).find((one) => one);
  if (first) pin(linkOf(first.getAttribute('href')));
}

if (document.getElementById('states')) begin();
