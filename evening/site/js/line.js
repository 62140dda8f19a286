// The moves of one game, kept in this tab. The host tells only the last one; what is missing stands in its journal.
import { ask } from './api.js';
import { store } from './state.js';
import { readFen, play, san, sameness, moveOf, START } from './rules.js';

export class GameLine {
  constructor(id) {
    this.id = id;
    this.moves = []; // words, null where one was not heard
    this.filledAt = -Infinity;
    try {
      const kept = JSON.parse(store.getItem('line'));
      if (kept?.id === id) this.moves = kept.moves;
    } catch { /* nothing kept */ }
  }

  get whole() {
    return !this.moves.includes(null);
  }

  keep() {
    store.setItem('line', JSON.stringify({ id: this.id, moves: this.moves }));
  }

  // Takes the last move of a game as heard.
  follow(game) {
    if (game.ply <= this.moves.length) return;
    while (this.moves.length < game.ply - 1) this.moves.push(null);
    this.moves.push(game.last);
    this.keep();
  }

  // Looks for the missing moves of a running game in the journal, from `end` back, a thousand entries a step; true where it
  // found them. Of a running game alone: a move that came after the flag stands in the journal too, and was not made.
  async fill(game, end, key) {
    if (this.whole || game.outcome !== null || performance.now() - this.filledAt < 2000) return false;
    this.filledAt = performance.now();
    let found = [];
    for (let k = 0; k < 20 && end > 0 && found.length < game.ply; k++) {
      const from = Math.max(0, end - 1000);
      const { entries } = (await ask('GET', 'journal/' + from, key)).body;
      const words = entries.slice(0, end - from).map((e) => e.split(' '));
      found = words.filter((w) => w[2] === 'act' && w[4] === String(game.id) && w[5] === 'move').map((w) => w[6]).concat(found);
      end = from;
    }
    if (found.length !== game.ply) return false;
    this.moves.splice(0, game.ply, ...found);
    this.keep();
    return true;
  }

  // The moves as texts for a list; from a hole on they are plain words.
  texts() {
    const name = this.moves.join(' ');
    if (this.textsOf !== name) {
      this.textsOf = name;
      let pos = readFen(START);
      this.kept = this.moves.map((word) => {
        if (word === null) pos = null;
        if (pos === null) return word ?? '…';
        const text = san(pos, moveOf(word));
        pos = play(pos, moveOf(word));
        return text;
      });
    }
    return this.kept;
  }

  // Whether a claim of the side to move would stand, as far as this tab has seen the game.
  claimable(fen) {
    const pos = readFen(fen);
    if (pos.half >= 100) return true;
    if (!this.whole) return false;
    const here = sameness(pos);
    let p = readFen(START), times = sameness(p) === here ? 1 : 0;
    for (const word of this.moves) {
      p = play(p, moveOf(word));
      if (p.half === 0) times = 0;
      if (p.turn === pos.turn && sameness(p) === here) times += 1;
    }
    return times >= 3;
  }
}
