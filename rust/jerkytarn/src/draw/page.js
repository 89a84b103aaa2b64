// Looks through a planned block. Everything shown is in the element `block`; nothing is decided here.
'use strict';

const root = document.documentElement;
const byId = (id) => document.getElementById(id);

function fail(message) {
  root.dataset.error = message;
  byId('error').hidden = false;
  byId('error').textContent = `This page met an error: ${message}`;
}
window.addEventListener('error', (event) => fail(event.message));
window.addEventListener('unhandledrejection', (event) => fail(String(event.reason)));

// ---- the block -----------------------------------------------------------------------------------------------------

const block = JSON.parse(byId('block').textContent);
const { width: W, height: H, layers: K } = block;
const EAST = (W - 1) * H; // east edges come first
const EDGES = EAST + W * (H - 1);
const NETS = block.nets.length;
const net = (number) => {
  const [vias, turn, score, pins, edges] = block.nets[number - 1];
  return { number, vias, turn, score, pins, edges };
};

const group = (number) => String(number).replace(/\B(?=(\d{3})+$)/g, ',');
const edgeNumber = (x, y, way) => (way === 'e' ? y * (W - 1) + x : EAST + y * W + x);
const hasEdge = (x, y, way) => x >= 0 && y >= 0 && x < W && y < H && (way === 'e' ? x + 1 < W : y + 1 < H);
function ends(edge) {
  if (edge < EAST) {
    const [x, y] = [edge % (W - 1), Math.floor(edge / (W - 1))];
    return { x, y, way: 'e', x2: x + 1, y2: y };
  }
  const [x, y] = [(edge - EAST) % W, Math.floor((edge - EAST) / W)];
  return { x, y, way: 'n', x2: x, y2: y + 1 };
}

// The nets on each edge of each layer, as stretches of one list, and the nets with a pin in each tile.
const first = new Uint32Array(K * EDGES + 1);
for (const [, , , , edges] of block.nets) for (const code of edges) first[(code & 7) * EDGES + (code >> 3) + 1] += 1;
for (let place = 0; place < K * EDGES; place += 1) first[place + 1] += first[place];
const users = new Uint16Array(first[K * EDGES]);
const pinned = new Map();
{
  const next = first.slice();
  block.nets.forEach(([, , , pins, edges], place) => {
    for (const code of edges) users[next[(code & 7) * EDGES + (code >> 3)]++] = place + 1;
    for (const code of pins) {
      const tile = code >> 3;
      if (!pinned.has(tile)) pinned.set(tile, new Set());
      pinned.get(tile).add(place + 1);
    }
  });
}
const used = (layer, edge) => first[(layer - 1) * EDGES + edge + 1] - first[(layer - 1) * EDGES + edge];
const capacity = (layer, edge) => block.capacity[layer - 1][edge];
const overflow = (layer, edge) => Math.max(0, used(layer, edge) - capacity(layer, edge));
const netsOn = (layer, edge) => [...users.subarray(first[(layer - 1) * EDGES + edge], first[(layer - 1) * EDGES + edge + 1])];
const viasAt = (tile) => block.tileVias.reduce((sum, level) => sum + level[tile], 0);

function netsAtTile(x, y) {
  const found = new Set(pinned.get(y * W + x) || []);
  for (const [a, b, way] of [[x, y, 'e'], [x, y, 'n'], [x - 1, y, 'e'], [x, y - 1, 'n']]) {
    if (!hasEdge(a, b, way)) continue;
    for (let layer = 1; layer <= K; layer += 1) netsOn(layer, edgeNumber(a, b, way)).forEach((n) => found.add(n));
  }
  return [...found].sort((a, b) => a - b);
}

// Whether a layer carries edges of a way, and its name: by its letter, `h` or `v`, where the job gives directions.
const carries = (layer, way) => !block.dirs || block.dirs[layer - 1] === (way === 'e' ? 'h' : 'v');
const layerName = (layer) => (block.dirs ? `Layer ${layer} (${block.dirs[layer - 1]})` : `Layer ${layer}`);

// What the nets want, where the job has a line `low`: the lowest wanted layer of a net, the excess of an edge at a layer
// and in all, and the nets on an edge of a layer that want a higher one.
const { directives } = block;
const lowOf = (number) => (directives ? directives.low[number - 1] : 1);
const excesses = new Map((directives ? directives.excess : []).map(([edge, ...byLayer]) => [edge, byLayer]));
const excessAt = (layer, edge) => (excesses.get(edge) || [])[layer - 1] || 0;
const excess = (edge) => (excesses.get(edge) || []).reduce((sum, each) => sum + each, 0);
const belowAt = (layer, edge) => netsOn(layer, edge).filter((number) => lowOf(number) > layer).length;
const belowOf = (number) => net(number).edges.filter((code) => (code & 7) + 1 < lowOf(number)).length;

// The edges that nets with rings dropped, by net, and the nets that dropped an edge. They are on no layer.
const dropped = new Map((block.dropped || []).map(([number, ...edges]) => [number, edges]));
const droppedBy = new Map();
for (const [number, edges] of dropped) for (const edge of edges) droppedBy.set(edge, [...(droppedBy.get(edge) || []), number]);
const droppedOf = (number) => dropped.get(number) || [];

// 0: no track used, 1 to 10: by tenths, -1: overflow, -2: neither tracks nor nets
function classOf(layer, edge) {
  const [some, all] = [used(layer, edge), capacity(layer, edge)];
  if (some > all) return -1;
  return all === 0 ? -2 : Math.ceil((10 * some) / all);
}

// ---- what is chosen ------------------------------------------------------------------------------------------------

// `at`: the place pointed at, { layer, x, y, way }, way being '' for a tile and layer 0 on the map of vias
const state = { at: null, held: false, net: 0 };
const maps = [];

function choose(change) {
  Object.assign(state, change);
  showPlace();
  if ('net' in change) showNet();
  maps.forEach((map) => map.draw());
}

function hold(at) {
  choose({ at, held: true });
  writeAddress();
}

function chooseNet(number) {
  choose({ net: number });
  writeAddress();
}

// The address names the place and the net, so that it can be sent to somebody.
function writeAddress() {
  const parts = [];
  if (state.at && state.held) {
    const { layer, x, y, way } = state.at;
    parts.push(way ? `edge=${layer},${x},${y},${way}` : `tile=${x},${y}`);
  }
  if (state.net) parts.push(`net=${state.net}`);
  try {
    history.replaceState(null, '', `#${parts.join('&')}`);
  } catch (_) {
    // some browsers do not allow it on a file; nothing else depends on it
  }
}

function readAddress() {
  for (const part of location.hash.slice(1).split('&')) {
    const [key, value = ''] = part.split('=');
    const numbers = value.split(',').map(Number);
    const [layer, x, y] = numbers;
    const way = value.slice(-1);
    if (key === 'net' && layer >= 1 && layer <= NETS) choose({ net: layer });
    if (key === 'edge' && layer >= 1 && layer <= K && /^[en]$/.test(way) && hasEdge(x, y, way) && carries(layer, way)) {
      choose({ at: { layer, x, y, way }, held: true });
    }
    if (key === 'tile' && layer >= 0 && layer < W && x >= 0 && x < H) choose({ at: { layer: 0, x: layer, y: x, way: '' }, held: true });
  }
}

// ---- words beside the maps -----------------------------------------------------------------------------------------

function element(tag, attributes = {}, ...children) {
  const made = document.createElement(tag);
  for (const [key, value] of Object.entries(attributes)) {
    if (key.startsWith('on')) made.addEventListener(key.slice(2), value);
    else made.setAttribute(key, value);
  }
  made.append(...children);
  return made;
}

function facts(rows) {
  const list = element('dl', { class: 'facts' });
  for (const [name, value, bad] of rows) {
    list.append(element('dt', {}, name), element('dd', { 'data-fact': name, ...(bad ? { class: 'bad' } : {}) }, String(value)));
  }
  return list;
}

function chips(numbers) {
  const most = 60;
  const list = element('div', { class: 'chips', 'data-nets': numbers.join(' ') });
  for (const number of numbers.slice(0, most)) {
    const pressed = String(number === state.net);
    list.append(element('button', { type: 'button', 'aria-pressed': pressed, onclick: () => chooseNet(number) }, String(number)));
  }
  if (numbers.length > most) list.append(element('span', { class: 'hint' }, `and ${group(numbers.length - most)} more`));
  return list;
}

function edgeWords({ layer, x, y, way }) {
  const { x2, y2 } = ends(edgeNumber(x, y, way));
  return `${layerName(layer)}, ${x},${y} → ${x2},${y2}`;
}

function showPlace() {
  const place = byId('place');
  const { at } = state;
  if (!at) {
    place.replaceChildren(element('p', { class: 'hint' }, 'Point at an edge or a tile, or move there with the arrow keys.'));
  } else if (at.way) {
    place.replaceChildren(...edgeFacts(at));
  } else {
    place.replaceChildren(...tileFacts(at));
  }
  if (at && state.held) place.append(element('p', { class: 'hint' }, 'Held. Enter or Esc lets it go.'));
}

function edgeFacts(at) {
  const edge = edgeNumber(at.x, at.y, at.way);
  const { x2, y2 } = ends(edge);
  const over = overflow(at.layer, edge);
  let [all, tracks] = [0, 0];
  for (let layer = 1; layer <= K; layer += 1) {
    all += used(layer, edge);
    tracks += capacity(layer, edge);
  }
  return [
    element('h3', {}, edgeWords(at)),
    facts([
      ['tiles', `${at.x},${at.y} and ${x2},${y2}`],
      ['edge', `${at.x},${at.y},${at.way}`],
      ['capacity', group(capacity(at.layer, edge))],
      ['used', group(used(at.layer, edge))],
      ['overflow', group(over), over > 0],
      ['on all layers', `${group(all)} of ${group(tracks)}`, all > tracks],
      ...directiveFacts(at.layer, edge),
      ...(dropped.size ? [['dropped by nets', (droppedBy.get(edge) || []).map(group).join(', ') || 'none']] : []),
    ]),
    chips(netsOn(at.layer, edge)),
  ];
}

// What the nets on an edge want of it; nothing where the job has no directives.
function directiveFacts(layer, edge) {
  if (!directives) return [];
  const [below, sum] = [belowAt(layer, edge), excess(edge)];
  const layers = (excesses.get(edge) || []).map((some, place) => some && place + 1).filter(Boolean);
  return [
    ['want a higher layer', group(below), below > 0],
    ['directive excess', sum ? `${group(sum)} (${layers.length > 1 ? 'layers' : 'layer'} ${layers.join(', ')})` : '0', sum > 0],
  ];
}

function tileFacts({ x, y }) {
  const tile = y * W + x;
  const rows = [['vias', viasAt(tile)]];
  block.tileVias.forEach((level, place) => {
    if (level[tile] > 0) rows.push([`layers ${place + 1} to ${place + 2}`, level[tile]]);
  });
  return [element('h3', {}, `Tile ${x},${y}`), facts(rows), chips(netsAtTile(x, y))];
}

function showNet() {
  showInList(state.net);
  if (!state.net) {
    byId('net').replaceChildren(element('p', { class: 'hint' }, 'None.'));
    return;
  }
  const { number, vias, turn, score, pins, edges } = net(state.net);
  const layers = [...new Set(edges.map((code) => (code & 7) + 1))].sort((a, b) => a - b);
  byId('net').replaceChildren(
    element('h3', {}, `Net ${number}`),
    facts([
      ['net vias', vias],
      ['edges', edges.length],
      ...(dropped.size ? [['dropped edges', droppedOf(number).length]] : []),
      ['pins', pins.length],
      ['in tiles', new Set(pins.map((code) => code >> 3)).size],
      ['on layers', layers.join(', ') || 'none'],
      ...(directives ? [['lowest wanted layer', lowOf(number)], ['edges below it', group(belowOf(number)), belowOf(number) > 0]] : []),
      ['turn', `${group(turn)} of ${group(NETS)}`],
      ['score', group(score)],
    ]),
    element('button', { type: 'button', onclick: () => chooseNet(0) }, 'Let it go'),
  );
}

function showFigures() {
  const [total, maximum] = block.overflow;
  const strong = (number) => element('strong', {}, group(number));
  const dirs = block.dirs ? ` (${block.dirs.join(',')})` : '';
  const limits = block.dirs ? `; limit of a layer east ${group(block.limits[0])}, north ${group(block.limits[1])}` : '';
  byId('runs').hidden = !block.dirs;
  document.querySelectorAll('.directives').forEach((each) => { each.hidden = !directives; });
  byId('figures').append(
    strong(W), ' × ', strong(H), ' tiles · ', strong(K), ` layers${dirs} · `, strong(NETS), ' nets · ', strong(block.vias),
    ' vias · overflow ', strong(total), `, at most ${group(maximum)} on an edge (flat plan ${group(block.flat[0])}, at most ${group(block.flat[1])}${limits})`,
  );
  if (directives) byId('figures').append(' · ldof ', strong(directives.ldof));
  document.querySelectorAll('.rings').forEach((each) => { each.hidden = !dropped.size; });
  if (dropped.size) byId('figures').append(' · dropped edges ', strong(droppedCount()));
  for (let step = 0; step <= 10; step += 1) byId('ramp').append(element('i', { style: `background:var(--u${step})` }));
}

const droppedCount = () => [...dropped.values()].reduce((sum, edges) => sum + edges.length, 0);

// The nets with rings, those that lost most edges first.
function showRings() {
  if (!dropped.size) return;
  byId('cut').append(facts([['nets cut', group(dropped.size)], ['edges dropped', group(droppedCount())]]));
  byId('cut-nets').append(chips([...dropped.keys()].sort((a, b) => droppedOf(b).length - droppedOf(a).length || a - b)));
}

function showCrowded() {
  const places = [];
  for (let layer = 1; layer <= K; layer += 1) {
    for (let edge = 0; edge < EDGES; edge += 1) {
      const [some, all] = [used(layer, edge), capacity(layer, edge)];
      if (some > 0 && some >= all) places.push([overflow(layer, edge), some / (all || 0.5), some, layer, edge]);
    }
  }
  places.sort((a, b) => b[0] - a[0] || b[1] - a[1] || b[2] - a[2] || a[3] - b[3] || a[4] - b[4]);
  for (const [over, , some, layer, edge] of places.slice(0, 15)) {
    const { x, y, way } = ends(edge);
    const at = { layer, x, y, way };
    const share = `${group(some)} of ${group(capacity(layer, edge))}${over ? ' ◆' : ''}`;
    byId('crowded').append(placeRow(at, edgeWords(at), share));
  }
  if (!places.length) byId('crowded').append(element('li', { class: 'hint' }, 'No edge is full.'));
}

// A row of a list of places: a button that leads there.
function placeRow(at, words, figure) {
  return element('li', {}, element('button', { type: 'button', onclick: () => hold(at) }, element('span', {}, words), element('span', {}, figure)));
}

// The layer on which an edge is shown for an excess at this one: the next that carries it, or else the highest that does.
function layerFor(layer, way) {
  const own = Array.from({ length: K }, (_, place) => place + 1).filter((each) => carries(each, way));
  return own.find((each) => each >= layer) || own[own.length - 1];
}

// Which layers the nets want, what the plan gives them, and the edges where that cannot be had.
function showDirectives() {
  if (!directives) return;
  byId('list').parentElement.classList.add('with-low');
  document.querySelector('.list-head').append(element('span', {}, 'low'));
  byId('sort').append(element('option', { value: 'low' }, 'highest low'));
  const all = Array.from({ length: NETS }, (_, place) => place + 1);
  const rows = [];
  for (let low = 2; low <= K; low += 1) {
    const nets = all.filter((number) => lowOf(number) === low);
    const count = (figure) => group(nets.reduce((sum, number) => sum + figure(number), 0));
    if (nets.length) rows.push([`low ${low}: ${group(nets.length)} ${nets.length === 1 ? 'net' : 'nets'}`, `${count(belowOf)} of ${count((number) => net(number).edges.length)} edges below`]);
  }
  rows.push(['ldof', group(directives.ldof), directives.ldof > 0]);
  byId('wanted').append(facts(rows));
  for (const [edge, ...byLayer] of directives.excess.slice(0, 15)) {
    const { x, y, way, x2, y2 } = ends(edge);
    const at = { layer: layerFor(byLayer.findIndex((some) => some > 0) + 1, way), x, y, way };
    byId('excess').append(placeRow(at, `${x},${y} → ${x2},${y2}`, `excess ${group(excess(edge))} ▲`));
  }
}

// ---- the list of nets: only the rows in sight are there ------------------------------------------------------------

const ROW = 24;
const list = { shown: [], active: 0 };

const orders = {
  net: (a, b) => a - b,
  vias: (a, b) => block.nets[b - 1][0] - block.nets[a - 1][0] || a - b,
  edges: (a, b) => block.nets[b - 1][4].length - block.nets[a - 1][4].length || a - b,
  turn: (a, b) => block.nets[a - 1][1] - block.nets[b - 1][1],
  low: (a, b) => lowOf(b) - lowOf(a) || a - b,
};

function found(words) {
  const tile = /^(\d+),(\d+)$/.exec(words);
  if (tile) return +tile[1] < W && +tile[2] < H ? netsAtTile(+tile[1], +tile[2]) : [];
  const all = Array.from({ length: NETS }, (_, place) => place + 1);
  return words ? all.filter((number) => String(number).startsWith(words)) : all;
}

function search() {
  list.shown = found(byId('search').value.replace(/\s/g, '')).sort(orders[byId('sort').value]);
  list.active = 0;
  byId('count').textContent = list.shown.length === NETS ? `${group(NETS)} nets` : `${group(list.shown.length)} of ${group(NETS)} nets`;
  byId('list').scrollTop = 0;
  drawRows();
}

function drawRows() {
  const box = byId('list');
  const from = Math.max(0, Math.floor(box.scrollTop / ROW) - 4);
  const rows = list.shown.slice(from, from + Math.ceil((box.clientHeight || 260) / ROW) + 8).map((number, place) => row(number, from + place));
  byId('rows').style.height = `${ROW * list.shown.length}px`;
  byId('rows').replaceChildren(...rows);
  box.setAttribute('aria-activedescendant', `row-${list.active}`);
}

// Brings a net's row into sight, where it is among those shown.
function showInList(number) {
  const place = list.shown.indexOf(number);
  const box = byId('list');
  if (place >= 0) {
    list.active = place;
    const high = box.clientHeight || 260;
    if (ROW * place < box.scrollTop || ROW * (place + 1) > box.scrollTop + high) box.scrollTop = ROW * place - high / 2;
  }
  drawRows();
}

function row(number, place) {
  const { vias, edges, pins, turn } = net(number);
  const cells = [number, vias, edges.length, pins.length, turn, ...(directives ? [lowOf(number)] : [])].map((value) => element('span', {}, String(value)));
  const wants = (lowOf(number) > 1 ? `, wants layer ${lowOf(number)} or higher` : '')
    + (droppedOf(number).length ? `, ${droppedOf(number).length} dropped` : '');
  return element('div', {
    class: `net-row${place === list.active ? ' active' : ''}`,
    id: `row-${place}`,
    role: 'option',
    'aria-selected': String(number === state.net),
    'aria-label': `net ${number}, ${vias} vias, ${edges.length} edges${wants}`,
    style: `top:${ROW * place}px`,
    onclick: () => {
      list.active = place;
      chooseNet(number === state.net ? 0 : number);
    },
  }, ...cells);
}

function moveInList(event) {
  const page = Math.floor(byId('list').clientHeight / ROW);
  const moves = { ArrowDown: 1, ArrowUp: -1, PageDown: page, PageUp: -page, Home: -Infinity, End: Infinity };
  if (event.key in moves) {
    list.active = Math.min(Math.max(list.active + moves[event.key], 0), Math.max(0, list.shown.length - 1));
    const top = ROW * list.active;
    const box = byId('list');
    if (top < box.scrollTop) box.scrollTop = top;
    if (top + ROW > box.scrollTop + box.clientHeight) box.scrollTop = top + ROW - box.clientHeight;
    drawRows();
  } else if (event.key === 'Enter' || event.key === ' ') {
    if (list.shown.length) chooseNet(list.shown[list.active]);
  } else {
    return;
  }
  event.preventDefault();
}

// ---- maps ----------------------------------------------------------------------------------------------------------

const colour = (name) => getComputedStyle(root).getPropertyValue(name).trim();
let palette = {};

function readPalette() {
  palette = { used: [] };
  for (const name of ['paper', 'ink', 'faint', 'line', 'over', 'mark', 'via', 'net', 'halo', 'dropped']) palette[name] = colour(`--${name}`);
  for (let step = 0; step <= 10; step += 1) palette.used.push(colour(`--u${step}`));
}

// A canvas with the grid of one layer, or, for layer 0, with the vias of every tile.
class LayerMap {
  constructor(layer) {
    this.layer = layer;
    this.canvas = element('canvas', { tabindex: '0', role: 'application', 'aria-label': this.label() });
    this.base = document.createElement('canvas'); // what does not change with the place or the net
    this.button = element('button', { type: 'button', 'aria-pressed': 'false', onclick: () => this.enlarge() }, 'Enlarge');
    const title = layer ? layerName(layer) : 'Vias';
    const caption = element('figcaption', {}, element('strong', {}, title), element('span', {}, this.words()), this.button);
    this.figure = element('figure', { 'data-map': String(layer) }, caption, this.canvas);
    this.overflowed = layer ? this.edges().filter((edge) => overflow(layer, edge) > 0) : [];
    this.listen();
  }

  edges() {
    return Array.from({ length: EDGES }, (_, edge) => edge);
  }

  words() {
    const count = droppedCount();
    if (!this.layer) return `${group(block.vias)} in all${count ? `, ${group(count)} ${count === 1 ? 'edge' : 'edges'} dropped` : ''}`;
    let [tracks, taken, over, short] = [0, 0, 0, 0];
    for (let edge = 0; edge < EDGES; edge += 1) {
      tracks += capacity(this.layer, edge);
      taken += Math.min(used(this.layer, edge), capacity(this.layer, edge));
      over += overflow(this.layer, edge) > 0 ? 1 : 0;
      short += excessAt(this.layer, edge) > 0 ? 1 : 0;
    }
    const share = tracks ? `${((100 * taken) / tracks).toFixed(1)} % used` : 'no tracks';
    const words = over ? `${share}, ${group(over)} ${over === 1 ? 'edge overflows' : 'edges overflow'}` : share;
    return short ? `${words}, ${group(short)} ▲` : words;
  }

  label() {
    const words = this.words().replace('▲', 'with directive excess');
    return this.layer ? `${layerName(this.layer)}: ${words}. Arrow keys move from tile to edge.` : 'Vias by tile. Arrow keys move.';
  }

  enlarge() {
    const large = this.figure.classList.toggle('large');
    this.button.textContent = large ? 'Make small' : 'Enlarge';
    this.button.setAttribute('aria-pressed', String(large));
    this.resize();
  }

  // How large a tile is, and where the grid stands.
  resize() {
    const wide = this.canvas.clientWidth || 380;
    const most = this.figure.classList.contains('large') ? Math.max(400, window.innerHeight - 90) : 560;
    this.tile = Math.max(2, Math.min((wide - 34) / W, (most - 26) / H, 72));
    this.left = 26;
    this.top = 6;
    this.high = this.tile * H + 26;
    const scale = window.devicePixelRatio || 1;
    this.canvas.style.height = `${this.high}px`;
    for (const canvas of [this.canvas, this.base]) {
      canvas.width = Math.max(1, Math.round(wide * scale));
      canvas.height = Math.max(1, Math.round(this.high * scale));
    }
    this.scale = scale;
    this.drawBase();
    this.draw();
  }

  // The middle of a tile; north is up.
  middle(x, y) {
    return [this.left + (x + 0.5) * this.tile, this.top + (H - 1 - y + 0.5) * this.tile];
  }

  drawBase() {
    const pen = this.base.getContext('2d');
    pen.setTransform(this.scale, 0, 0, this.scale, 0, 0);
    pen.clearRect(0, 0, this.base.width, this.base.height);
    this.drawFrame(pen);
    if (this.layer) this.drawEdges(pen);
    else {
      this.drawDropped(pen, [...droppedBy.keys()]);
      this.drawVias(pen);
    }
  }

  // Dropped edges, dashed and in their own colour: on the map of vias, and on every map those of the chosen net.
  drawDropped(pen, edges) {
    pen.strokeStyle = palette.dropped;
    pen.lineWidth = Math.max(1, Math.min(0.2 * this.tile, 5));
    pen.setLineDash([3, 2]);
    this.strokeEdges(pen, edges.map((edge) => 8 * edge));
    pen.setLineDash([]);
  }

  drawFrame(pen) {
    pen.strokeStyle = palette.line;
    pen.lineWidth = 1;
    pen.strokeRect(this.left, this.top, this.tile * W, this.tile * H);
    pen.fillStyle = palette.faint;
    pen.font = '10px system-ui, sans-serif';
    const step = [1, 2, 4, 8, 16, 32].find((tiles) => tiles * this.tile >= 22) || 64;
    pen.textAlign = 'center';
    pen.textBaseline = 'top';
    for (let x = 0; x < W; x += step) pen.fillText(String(x), this.middle(x, 0)[0], this.top + this.tile * H + 5);
    pen.textAlign = 'right';
    pen.textBaseline = 'middle';
    for (let y = 0; y < H; y += step) pen.fillText(String(y), this.left - 5, this.middle(0, y)[1]);
    if (this.layer && this.tile >= 10) {
      pen.fillStyle = palette.line;
      const half = Math.max(1, 0.07 * this.tile);
      for (let y = 0; y < H; y += 1) for (let x = 0; x < W; x += 1) this.square(pen, x, y, half);
    }
  }

  square(pen, x, y, half) {
    const [a, b] = this.middle(x, y);
    pen.fillRect(a - half, b - half, 2 * half, 2 * half);
  }

  // An edge as a bar between the middles of its tiles.
  bar(pen, edge, thick, gap) {
    const { x, y, way } = ends(edge);
    const [a, b] = this.middle(x, y);
    const long = this.tile - 2 * gap;
    if (way === 'e') pen.fillRect(a + gap, b - thick / 2, long, thick);
    else pen.fillRect(a - thick / 2, b - gap - long, thick, long);
  }

  drawEdges(pen) {
    const byClass = new Map();
    for (let edge = 0; edge < EDGES; edge += 1) {
      const found = classOf(this.layer, edge);
      if (!byClass.has(found)) byClass.set(found, []);
      byClass.get(found).push(edge);
    }
    const thick = Math.max(1.5, Math.min(0.42 * this.tile, 14));
    for (let step = 0; step <= 10; step += 1) {
      pen.fillStyle = palette.used[step];
      for (const edge of byClass.get(step) || []) this.bar(pen, edge, thick, 0.16 * this.tile);
    }
    const over = byClass.get(-1) || [];
    pen.fillStyle = palette.over;
    for (const edge of over) this.bar(pen, edge, thick, 0.1 * this.tile);
    // on small tiles the mark is larger than the edge and takes its colour, with a rim that sets it off
    const small = this.tile < 18;
    const radius = small ? Math.max(3.6, 0.32 * this.tile) : Math.min(0.3 * this.tile, 8);
    pen.lineWidth = small ? 1 : Math.min(0.12 * this.tile, 1.5);
    pen.strokeStyle = palette.ink;
    for (const [fill, size, rim] of small ? [[palette.paper, radius + 1.4, false], [palette.over, radius, true]] : [[palette.mark, radius, true]]) {
      pen.fillStyle = fill;
      for (const edge of over) this.diamond(pen, edge, size, rim);
    }
    this.drawExcess(pen, small ? Math.max(3, 0.28 * this.tile) : Math.min(0.24 * this.tile, 7));
  }

  // On each edge with excess at this layer a triangle; it stands aside where the edge has the mark of overflow.
  drawExcess(pen, radius) {
    pen.fillStyle = palette.mark;
    pen.strokeStyle = palette.ink;
    pen.lineWidth = Math.min(0.12 * this.tile, 1.5);
    for (const edge of this.edges().filter((each) => excessAt(this.layer, each) > 0)) {
      const { x, y, x2, y2 } = ends(edge);
      const part = overflow(this.layer, edge) ? 0.2 : 0.5;
      const [a, b] = this.middle(x + part * (x2 - x), y + part * (y2 - y));
      pen.beginPath();
      pen.moveTo(a, b - radius);
      pen.lineTo(a + radius, b + 0.7 * radius);
      pen.lineTo(a - radius, b + 0.7 * radius);
      pen.closePath();
      pen.fill();
      pen.stroke();
    }
  }

  // The mark of overflow: seen by its shape, not only by its colour.
  diamond(pen, edge, radius, rim) {
    const { x, y, x2, y2 } = ends(edge);
    const [a, b] = this.middle((x + x2) / 2, (y + y2) / 2);
    pen.beginPath();
    pen.moveTo(a, b - radius);
    pen.lineTo(a + radius, b);
    pen.lineTo(a, b + radius);
    pen.lineTo(a - radius, b);
    pen.closePath();
    pen.fill();
    if (rim) pen.stroke();
  }

  drawVias(pen) {
    let most = 1;
    for (let tile = 0; tile < W * H; tile += 1) most = Math.max(most, viasAt(tile));
    pen.fillStyle = palette.via;
    for (let tile = 0; tile < W * H; tile += 1) {
      const vias = viasAt(tile);
      if (vias > 0) this.disc(pen, tile % W, Math.floor(tile / W), Math.max(0.6, 0.5 * this.tile * Math.sqrt(vias / most)));
    }
  }

  disc(pen, x, y, radius) {
    const [a, b] = this.middle(x, y);
    pen.beginPath();
    pen.arc(a, b, radius, 0, 2 * Math.PI);
    pen.fill();
  }

  draw() {
    if (!this.tile) return;
    const pen = this.canvas.getContext('2d');
    pen.setTransform(1, 0, 0, 1, 0, 0);
    pen.clearRect(0, 0, this.canvas.width, this.canvas.height);
    pen.globalAlpha = state.net ? 0.4 : 1;
    pen.drawImage(this.base, 0, 0);
    pen.globalAlpha = 1;
    pen.setTransform(this.scale, 0, 0, this.scale, 0, 0);
    if (state.net) this.drawNet(pen, net(state.net));
    if (state.at) this.drawPlace(pen, state.at);
  }

  // The chosen net: bold on this layer, hollow where it wants a higher one, dashed on the others, with its pins and vias here.
  drawNet(pen, { number, pins, edges }) {
    const here = (code) => this.layer && (code & 7) + 1 === this.layer;
    this.drawDropped(pen, droppedOf(number));
    pen.lineCap = 'round';
    pen.strokeStyle = palette.net;
    pen.lineWidth = Math.max(1, Math.min(0.12 * this.tile, 2));
    pen.setLineDash([3, 3]);
    this.strokeEdges(pen, edges.filter((code) => !here(code)));
    pen.setLineDash([]);
    const bold = Math.max(2.5, Math.min(0.34 * this.tile, 9));
    const hollow = this.layer < lowOf(number) ? [[palette.halo, 0.45 * bold]] : [];
    for (const [style, width] of [[palette.halo, bold + 3], [palette.net, bold], ...hollow]) {
      pen.strokeStyle = style;
      pen.lineWidth = width;
      this.strokeEdges(pen, edges.filter(here));
    }
    this.drawCuts(pen, pins, edges);
    pen.fillStyle = palette.net;
    pen.strokeStyle = palette.halo;
    pen.lineWidth = 1.5;
    for (const code of pins.filter((code) => here(code) || !this.layer)) {
      const tile = code >> 3;
      this.disc(pen, tile % W, Math.floor(tile / W), Math.max(2.5, Math.min(0.24 * this.tile, 8)));
      pen.stroke();
    }
  }

  strokeEdges(pen, codes) {
    pen.beginPath();
    for (const code of codes) {
      const { x, y, x2, y2 } = ends(code >> 3);
      pen.moveTo(...this.middle(x, y));
      pen.lineTo(...this.middle(x2, y2));
    }
    pen.stroke();
  }

  // The vias of the net that pass or end on this layer, as open squares.
  drawCuts(pen, pins, edges) {
    const spans = new Map();
    const add = (tile, layer) => {
      const [low, high] = spans.get(tile) || [layer, layer];
      spans.set(tile, [Math.min(low, layer), Math.max(high, layer)]);
    };
    for (const code of pins) add(code >> 3, (code & 7) + 1);
    for (const code of edges) {
      const { x, y, x2, y2 } = ends(code >> 3);
      add(y * W + x, (code & 7) + 1);
      add(y2 * W + x2, (code & 7) + 1);
    }
    const half = Math.max(2.5, Math.min(0.26 * this.tile, 8));
    pen.fillStyle = palette.halo;
    pen.strokeStyle = palette.net;
    pen.lineWidth = Math.max(1.2, Math.min(0.1 * this.tile, 2));
    for (const [tile, [low, high]] of spans) {
      if (low === high || (this.layer && (this.layer < low || this.layer > high))) continue;
      this.square(pen, tile % W, Math.floor(tile / W), half);
      const [a, b] = this.middle(tile % W, Math.floor(tile / W));
      pen.strokeRect(a - half, b - half, 2 * half, 2 * half);
    }
  }

  // A ring around the place, on every map; strong on its own.
  drawPlace(pen, at) {
    const { x, y, way } = at;
    const [x2, y2] = way === 'e' ? [x + 1, y] : way === 'n' ? [x, y + 1] : [x, y];
    const [a, b] = this.middle(x, y2);
    const half = 0.5 * this.tile + 1;
    const own = at.layer === this.layer;
    pen.lineWidth = own ? 2 : 1;
    pen.strokeStyle = own ? palette.ink : palette.faint;
    pen.strokeRect(a - half, b - half, 2 * half + (x2 - x) * this.tile, 2 * half + (y2 - y) * this.tile);
  }

  // The edge or tile nearest to a point of the canvas.
  placeAt(event) {
    const box = this.canvas.getBoundingClientRect();
    const fx = (event.clientX - box.left - this.left) / this.tile - 0.5;
    const fy = H - 1 - ((event.clientY - box.top - this.top) / this.tile - 0.5);
    if (fx < -0.7 || fy < -0.7 || fx > W - 0.3 || fy > H - 0.3) return null;
    const clamp = (value, size) => Math.min(Math.max(Math.round(value), 0), size - 1);
    const [x, y] = [clamp(fx, W), clamp(fy, H)];
    const [dx, dy] = [fx - x, fy - y];
    const near = 0.18;
    if (!this.layer || (Math.abs(dx) < near && Math.abs(dy) < near)) return { layer: this.layer, x, y, way: '' };
    return this.edgeBeside(x, y, dx, dy) || { layer: this.layer, x, y, way: '' };
  }

  edgeBeside(x, y, dx, dy) {
    const [a, b, way] = Math.abs(dx) >= Math.abs(dy) ? [dx < 0 ? x - 1 : x, y, 'e'] : [x, dy < 0 ? y - 1 : y, 'n'];
    return hasEdge(a, b, way) && carries(this.layer, way) ? { layer: this.layer, x: a, y: b, way } : null;
  }

  listen() {
    this.canvas.addEventListener('pointermove', (event) => {
      const at = this.placeAt(event);
      showTip(event, at);
      if (!state.held) choose({ at });
    });
    this.canvas.addEventListener('pointerleave', () => {
      byId('tip').hidden = true;
      if (!state.held) choose({ at: null });
    });
    this.canvas.addEventListener('click', (event) => {
      const at = this.placeAt(event);
      if (at && state.held && same(at, state.at)) release();
      else if (at) hold(at);
    });
    this.canvas.addEventListener('dblclick', () => this.enlarge());
    this.canvas.addEventListener('keydown', (event) => this.key(event));
    this.canvas.addEventListener('focus', () => {
      if (!state.at) choose({ at: { layer: this.layer, x: 0, y: 0, way: '' } });
      else if (state.at.layer !== this.layer) choose({ at: this.moved(state.at) });
    });
  }

  // The same place on this map: an edge, where it has such edges, or else a tile. The map of vias has tiles only.
  moved(at) {
    return { ...at, layer: this.layer, way: this.layer && carries(this.layer, at.way) ? at.way : '' };
  }

  key(event) {
    if (event.ctrlKey || event.altKey || event.metaKey) return;
    const steps = { ArrowRight: [1, 0], ArrowLeft: [-1, 0], ArrowUp: [0, 1], ArrowDown: [0, -1] };
    const at = state.at || { layer: this.layer, x: 0, y: 0, way: '' };
    if (event.key in steps) choose({ at: this.step(this.moved(at), ...steps[event.key]), held: state.held });
    else if (event.key === 'PageUp') focusLayer(this.layer + 1);
    else if (event.key === 'PageDown') focusLayer(this.layer - 1);
    else if (event.key === 'Enter') state.held ? release() : hold(at);
    else if (event.key === '+' || event.key === '=') this.enlarge();
    else if (event.key === 'o') this.nextOverflow(at);
    else if (event.key === 'n') nextNet();
    else return;
    event.preventDefault();
  }

  // Half a step: from a tile to the edge beside it, from an edge to the tile at its end. Where the map has no such edge,
  // from tile to tile.
  step(at, dx, dy) {
    const { layer, x, y, way } = at;
    const tile = { ...at, x: Math.min(Math.max(x + dx, 0), W - 1), y: Math.min(Math.max(y + dy, 0), H - 1) };
    if (!way) return (layer && this.edgeBeside(x, y, dx, dy)) || tile;
    const along = way === 'e' ? dx : dy;
    const far = way === 'e' ? { x: x + 1, y } : { x, y: y + 1 };
    if (along) return { layer, ...(along > 0 ? far : { x, y }), way: '' };
    return hasEdge(x + dx, y + dy, way) ? { ...at, x: x + dx, y: y + dy } : at;
  }

  nextOverflow(at) {
    if (!this.overflowed.length) return;
    const now = at.way && at.layer === this.layer ? edgeNumber(at.x, at.y, at.way) : -1;
    const next = this.overflowed.find((edge) => edge > now);
    const { x, y, way } = ends(next === undefined ? this.overflowed[0] : next);
    hold({ layer: this.layer, x, y, way });
  }
}

const same = (one, other) => one && other && ['layer', 'x', 'y', 'way'].every((key) => one[key] === other[key]);

function release() {
  choose({ held: false });
  writeAddress();
}

function focusLayer(layer) {
  const map = maps.find((other) => other.layer === layer);
  if (map && layer > 0) map.canvas.focus();
}

function nextNet() {
  const { at } = state;
  if (!at) return;
  const nets = at.way ? netsOn(at.layer, edgeNumber(at.x, at.y, at.way)) : netsAtTile(at.x, at.y);
  if (nets.length) chooseNet(nets[(nets.indexOf(state.net) + 1) % nets.length]);
}

function showTip(event, at) {
  const tip = byId('tip');
  tip.hidden = !at || event.pointerType === 'touch';
  if (tip.hidden) return;
  if (at.way) {
    const edge = edgeNumber(at.x, at.y, at.way);
    const over = overflow(at.layer, edge);
    const share = `${group(used(at.layer, edge))} of ${group(capacity(at.layer, edge))} used`;
    const short = excessAt(at.layer, edge);
    tip.textContent = `${edgeWords(at)}: ${share}${over ? `, overflow ${group(over)} ◆` : ''}${short ? `, excess ${group(short)} ▲` : ''}`;
  } else {
    tip.textContent = `Tile ${at.x},${at.y}: ${group(viasAt(at.y * W + at.x))} vias`;
  }
  const left = Math.min(event.clientX + 14, window.innerWidth - tip.offsetWidth - 8);
  tip.style.left = `${Math.max(0, left)}px`;
  tip.style.top = `${event.clientY + (event.clientY > window.innerHeight - 50 ? -34 : 16)}px`;
}

// ---- the page ------------------------------------------------------------------------------------------------------

function redrawAll() {
  readPalette();
  maps.forEach((map) => map.resize());
}

const themes = ['as the system', 'light', 'dark'];

function nextTheme() {
  const theme = themes[(themes.indexOf(root.dataset.theme || themes[0]) + 1) % themes.length];
  if (theme === themes[0]) delete root.dataset.theme;
  else root.dataset.theme = theme;
  byId('theme').textContent = `Theme: ${theme}`;
  redrawAll();
}

function listenToPage() {
  byId('theme').addEventListener('click', nextTheme);
  byId('help').addEventListener('click', () => {
    byId('keys').hidden = !byId('keys').hidden;
    byId('help').setAttribute('aria-expanded', String(!byId('keys').hidden));
  });
  byId('search').addEventListener('input', search);
  byId('search').addEventListener('keydown', (event) => {
    if (event.key === 'ArrowDown') byId('list').focus();
    if (event.key === 'Enter' && list.shown.length) chooseNet(list.shown[0]);
  });
  byId('sort').addEventListener('change', search);
  byId('list').addEventListener('scroll', drawRows);
  byId('list').addEventListener('keydown', moveInList);
  document.addEventListener('keydown', (event) => {
    if (event.key === '/' && event.target !== byId('search')) {
      byId('search').focus();
      event.preventDefault();
    } else if (event.key === 'Escape') {
      choose({ at: null, held: false, net: 0 });
      writeAddress();
    }
  });
  window.addEventListener('hashchange', readAddress);
  window.addEventListener('beforeprint', redrawAll);
  window.addEventListener('afterprint', redrawAll);
  matchMedia('(prefers-color-scheme: dark)').addEventListener('change', redrawAll);
  let width = window.innerWidth;
  window.addEventListener('resize', () => {
    if (window.innerWidth !== width) redrawAll();
    width = window.innerWidth;
  });
}

function start() {
  showFigures();
  for (let layer = 1; layer <= K; layer += 1) maps.push(new LayerMap(layer));
  maps.push(new LayerMap(0));
  byId('maps').append(...maps.map((map) => map.figure));
  redrawAll();
  showDirectives();
  showRings();
  search();
  showCrowded();
  listenToPage();
  readAddress();
  root.dataset.ready = String(Math.round(performance.now()));
}

start();
