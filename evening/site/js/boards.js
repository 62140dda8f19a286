// The boards of the hall's screen: the first two for the best placed, the others for all games in turn.
import { SmallBoard } from './pieces.js';
import { cause, span, score } from './words.js';

const TURN_MS = 15000, STAY_MS = 7000;

class Figure {
  constructor() {
    this.board = new SmallBoard();
    this.strips = { black: strip('black'), white: strip('white') };
    this.result = Object.assign(document.createElement('p'), { className: 'end' });
    const frame = Object.assign(document.createElement('div'), { className: 'frame' });
    frame.append(this.board.root, this.result);
    const stack = document.createElement('div');
    stack.append(this.strips.black, frame, this.strips.white);
    this.root = document.createElement('figure');
    this.root.append(stack);
  }
}

function strip(side) {
  const div = Object.assign(document.createElement('div'), { className: 'strip' });
  div.innerHTML = `<span class="seat ${side}"></span><span class="place"></span><b class="name"></b><span class="mark"></span><span class="clock"></span>`;
  return div;
}

export class Boards {
  constructor(root, ranks) {
    this.root = root;
    this.ranks = ranks; // name -> rank
    this.slots = []; // { id, since, ended, figure }
  }

  has(id) {
    return this.slots.some((s) => s.id === id);
  }

  ids() {
    return this.slots.map((s) => s.id);
  }

  get empty() {
    return this.slots.length === 0;
  }

  clear() {
    this.slots.forEach((s) => s.figure.root.remove());
    this.slots = [];
  }

  ended(id) {
    const s = this.slots.find((slot) => slot.id === id);
    if (s) s.ended = performance.now();
  }

  // How well the better of two players stands.
  standing({ g }) {
    return Math.min(this.ranks.get(g.white) ?? 9999, this.ranks.get(g.black) ?? 9999);
  }

  // Gives boards to games. A board stays some seconds after its game's end; behind the first two the oldest gives way.
  seat(games, seen) {
    const now = performance.now();
    const room = Number(getComputedStyle(this.root).getPropertyValue('--count')) || 2;
    while (this.slots.length > room) this.slots.pop().figure.root.remove();
    const waiting = [...games].filter(([id, x]) => x.g && !x.g.outcome && !this.has(id))
      .sort(([, a], [, b]) => a.shown - b.shown || this.standing(a) - this.standing(b)).map(([id]) => id);
    const take = (i) => {
      if (i >= 2) return waiting.shift();
      const best = [...waiting].sort((a, b) => this.standing(games.get(a)) - this.standing(games.get(b)))[0];
      return waiting.splice(waiting.indexOf(best), 1)[0];
    };
    const put = (i) => this.put(i, take(i), games, seen, now);
    this.slots.forEach((s, i) => {
      const g = games.get(s.id)?.g;
      if (waiting.length > 0 && (!g || (g.outcome && now - s.ended > STAY_MS))) put(i);
    });
    while (this.slots.length < room && waiting.length > 0) put(this.slots.length);
    const oldest = this.slots.slice(2).filter((s) => !s.ended).sort((a, b) => a.since - b.since)[0];
    if (waiting.length > 0 && oldest && now - oldest.since > TURN_MS) put(this.slots.indexOf(oldest));
  }

  put(i, id, games, seen, now) {
    const figure = this.slots[i]?.figure ?? new Figure();
    if (!this.slots[i]) this.root.append(figure.root);
    this.slots[i] = { id, since: now, ended: null, figure };
    [games.get(id).shown, games.get(id).need] = [now, seen];
    figure.root.dataset.game = id;
  }

  draw(games) {
    for (const { id, figure } of this.slots) {
      const g = games.get(id)?.g;
      if (!g) continue;
      for (const side of ['white', 'black']) {
        const strip = figure.strips[side];
        strip.querySelector('.place').textContent = this.ranks.has(g[side]) ? this.ranks.get(g[side]) + 1 : '';
        strip.querySelector('.name').textContent = g[side];
        strip.querySelector('.mark').textContent = g[side + 'Berserk'] ? 'berserk' : '';
        strip.classList.toggle('won', g.outcome?.winner === side);
      }
      figure.board.show(g.fen, g.last, `Game ${g.id}, ${g.white} against ${g.black}, after ${g.ply} plies`);
      figure.result.textContent = g.outcome ? `${score(g.outcome, ' – ')}, ${cause(g.outcome.cause)}` : '';
    }
  }

  // The clocks; a game whose flag falls here is asked for again.
  tick(games, seen) {
    for (const { id, figure } of this.slots) {
      const x = games.get(id);
      if (!x) continue;
      for (const side of ['white', 'black']) {
        const face = figure.strips[side].querySelector('.clock');
        const ms = x.clock.left(side), runs = x.clock.runs === side, text = span(ms, true);
        if (face.textContent !== text) face.textContent = text;
        face.classList.toggle('runs', runs);
        face.classList.toggle('low', runs && ms < 20000);
        if (runs && ms === 0) x.need = Math.max(x.need, seen);
      }
    }
  }
}
