// What the player's page knows. One object, so that hearing, acting and showing look at the same.
import { HallClock, GameClock } from './clocks.js';

export const store = sessionStorage; // of this tab alone, so that two players can share a computer
export const hall = new HallClock();
export const clock = new GameClock();

export const page = {
  site: { title: 'Arena', control: '', first: null }, // evening.json
  key: null,
  arena: null, arenaHeard: -Infinity,
  me: null, meSeen: -1,
  wish: null, // what we last asked for while playing: the host does not tell it during a game
  game: null, gameSeen: -1, side: 'white',
  line: null, // the moves of this game
  sending: null, // { word, ply, m, flying } of our move on its way
  heardAt: null, // when we last heard of our seat or game
  noticed: null, // { id, at } of a game that began under our eyes; at: the last moment without it
  turnSince: null, // the last moment before this turn, if we saw it begin
  heldUntil: 0, // the end of a game is shown so long before the next game comes up
  before: 0, // points when the game began
  lastGame: '', // how the game before this one ended
  over: null, // the final table, once the host has closed
  busy: false, // an act is on its way
};

export const live = () => page.game !== null && page.game.outcome === null;
export const ourTurn = () => live() && page.game.turn === page.side;
export const ended = () => page.arena !== null && hall.now() >= page.arena.ends;

// What was known of seats and games holds no longer: another player sits down, or the host was started anew.
export function forgetEvening() {
  Object.assign(page, {
    me: null, meSeen: -1, wish: null, game: null, gameSeen: -1, line: null, sending: null, heardAt: null, noticed: null,
    turnSince: null, heldUntil: 0, before: 0, lastGame: '', over: null,
  });
  store.removeItem('line');
}
