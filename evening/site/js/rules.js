// The moves of chess over a FEN, for hints, words and animation alone. The host is the judge of every move.
// Squares are numbers: a1 = 0, h1 = 7, h8 = 63. A cell is '' or a FEN letter.

const KNIGHT = [[1, 2], [2, 1], [2, -1], [1, -2], [-1, -2], [-2, -1], [-2, 1], [-1, 2]];
const DIAGONAL = [[1, 1], [1, -1], [-1, -1], [-1, 1]];
const STRAIGHT = [[1, 0], [0, -1], [-1, 0], [0, 1]];
const ALL = [...DIAGONAL, ...STRAIGHT];

export const START = 'rnbqkbnr/pppppppp/8/8/8/8/PPPPPPPP/RNBQKBNR w KQkq - 0 1';
export const nameOf = (i) => 'abcdefgh'[i & 7] + ((i >> 3) + 1);
export const squareOf = (name) => name.charCodeAt(0) - 97 + 8 * (name.charCodeAt(1) - 49);
export const sideOf = (piece) => (piece === '' ? null : piece < 'a' ? 'white' : 'black');
export const other = (side) => (side === 'white' ? 'black' : 'white');
export const uci = (m) => nameOf(m.from) + nameOf(m.to) + m.promo;
export const moveOf = (word) => ({ from: squareOf(word), to: squareOf(word.slice(2)), promo: word[4] ?? '' });

export function readFen(fen) {
  const [board, turn, rights, ep, half, number] = fen.split(' ');
  const cells = Array(64).fill('');
  board.split('/').forEach((rank, r) => {
    let f = 0;
    for (const c of rank) {
      if (c >= '1' && c <= '8') f += Number(c);
      else cells[8 * (7 - r) + f++] = c;
    }
  });
  return {
    cells, rights: rights === '-' ? '' : rights, turn: turn === 'w' ? 'white' : 'black',
    ep: ep === '-' ? -1 : squareOf(ep), half: Number(half), number: Number(number),
  };
}

// As much of a FEN as a board needs that shows the position.
export function boardFen(pos) {
  const ranks = [];
  for (let r = 7; r >= 0; r--) {
    let text = '';
    for (let f = 0; f < 8; f++) text += pos.cells[8 * r + f] || '1';
    ranks.push(text);
  }
  return `${ranks.join('/')} ${pos.turn[0]} ${pos.rights || '-'} - ${pos.half} ${pos.number}`;
}

// The square that lies (df, dr) from i, or -1 off the board.
function step(i, df, dr) {
  const f = (i & 7) + df, r = (i >> 3) + dr;
  return f < 0 || f > 7 || r < 0 || r > 7 ? -1 : 8 * r + f;
}

export function attacked(cells, at, by) {
  const own = (letter) => (by === 'white' ? letter.toUpperCase() : letter);
  const back = by === 'white' ? -1 : 1;
  for (const df of [-1, 1]) {
    const j = step(at, df, back);
    if (j >= 0 && cells[j] === own('p')) return true;
  }
  for (const [df, dr] of KNIGHT) {
    const j = step(at, df, dr);
    if (j >= 0 && cells[j] === own('n')) return true;
  }
  for (const [df, dr] of ALL) {
    let j = step(at, df, dr);
    if (j >= 0 && cells[j] === own('k')) return true;
    while (j >= 0 && cells[j] === '') j = step(j, df, dr);
    if (j >= 0 && (cells[j] === own('q') || cells[j] === own(df && dr ? 'b' : 'r'))) return true;
  }
  return false;
}

export function inCheck(pos, side = pos.turn) {
  return attacked(pos.cells, pos.cells.indexOf(side === 'white' ? 'K' : 'k'), other(side));
}

// Moves by the ways of the pieces alone: a king may be left in check.
function candidates(pos) {
  const out = [];
  pos.cells.forEach((piece, from) => {
    if (sideOf(piece) !== pos.turn) return;
    const kind = piece.toLowerCase();
    const ends = kind === 'p' ? pawnEnds(pos, from) : pieceEnds(pos, from, kind);
    if (kind === 'k') ends.push(...castlingEnds(pos, from));
    for (const to of ends) {
      const promos = kind === 'p' && (to >> 3 === 0 || to >> 3 === 7) ? [...'qrbn'] : [''];
      out.push(...promos.map((promo) => ({ from, to, promo })));
    }
  });
  return out;
}

function pawnEnds({ cells, turn, ep }, from) {
  const up = turn === 'white' ? 1 : -1;
  const one = step(from, 0, up), two = from >> 3 === (turn === 'white' ? 1 : 6) ? step(one, 0, up) : -1;
  const free = (to) => to >= 0 && cells[to] === '';
  const ends = free(one) ? [one, two].filter(free) : [];
  const takes = (to) => to >= 0 && (sideOf(cells[to]) === other(turn) || to === ep);
  return ends.concat([step(from, -1, up), step(from, 1, up)].filter(takes));
}

function pieceEnds({ cells, turn }, from, kind) {
  const ends = [];
  for (const [df, dr] of { n: KNIGHT, b: DIAGONAL, r: STRAIGHT }[kind] ?? ALL) {
    for (let to = step(from, df, dr); to >= 0; to = step(to, df, dr)) {
      if (sideOf(cells[to]) !== turn) ends.push(to);
      if (cells[to] !== '' || kind === 'n' || kind === 'k') break;
    }
  }
  return ends;
}

function castlingEnds(pos, from) {
  const { cells, turn, rights } = pos;
  if (rights === '' || inCheck(pos)) return [];
  const [short, long] = turn === 'white' ? 'KQ' : 'kq';
  const safe = (to) => cells[to] === '' && !attacked(cells, to, other(turn));
  const ends = rights.includes(short) && safe(from + 1) && safe(from + 2) ? [from + 2] : [];
  return rights.includes(long) && cells[from - 3] === '' && safe(from - 1) && safe(from - 2) ? ends.concat(from - 2) : ends;
}

// The position after a move. The move need not be legal; the host's moves always are.
export function play(pos, m) {
  const cells = pos.cells.slice();
  const piece = cells[m.from];
  const kind = piece.toLowerCase();
  const takes = cells[m.to] !== '' || (kind === 'p' && m.to === pos.ep);
  cells[m.from] = '';
  cells[m.to] = m.promo === '' ? piece : pos.turn === 'white' ? m.promo.toUpperCase() : m.promo;
  if (kind === 'p' && m.to === pos.ep) cells[m.to + (pos.turn === 'white' ? -8 : 8)] = '';
  if (kind === 'k' && Math.abs(m.to - m.from) === 2) {
    const short = m.to > m.from;
    cells[(m.from + m.to) / 2] = cells[short ? m.from + 3 : m.from - 4];
    cells[short ? m.from + 3 : m.from - 4] = '';
  }
  const lost = { 4: 'KQ', 7: 'K', 0: 'Q', 60: 'kq', 63: 'k', 56: 'q' };
  const gone = (lost[m.from] ?? '') + (lost[m.to] ?? '');
  return {
    cells,
    turn: other(pos.turn),
    rights: [...pos.rights].filter((c) => !gone.includes(c)).join(''),
    ep: kind === 'p' && Math.abs(m.to - m.from) === 16 ? (m.from + m.to) / 2 : -1,
    half: kind === 'p' || takes ? 0 : pos.half + 1,
    number: pos.number + (pos.turn === 'black' ? 1 : 0),
  };
}

export function legalMoves(pos) {
  return candidates(pos).filter((m) => !inCheck(play(pos, m), pos.turn));
}

// What must agree for two positions to be the same when a draw is claimed.
export function sameness(pos) {
  const ep = pos.ep >= 0 && legalMoves(pos).some((m) => m.to === pos.ep && pos.cells[m.from].toLowerCase() === 'p');
  return [pos.cells.map((c) => c || '.').join(''), pos.turn, pos.rights, ep ? pos.ep : '-'].join(' ');
}

// Standard algebraic notation of a legal move.
export function san(pos, m, legal = legalMoves(pos)) {
  const kind = pos.cells[m.from].toUpperCase();
  const takes = pos.cells[m.to] !== '' || (kind === 'P' && m.to === pos.ep);
  let text;
  if (kind === 'K' && Math.abs(m.to - m.from) === 2) text = m.to > m.from ? 'O-O' : 'O-O-O';
  else if (kind === 'P') {
    text = (takes ? nameOf(m.from)[0] + 'x' : '') + nameOf(m.to) + (m.promo ? '=' + m.promo.toUpperCase() : '');
  } else {
    const rivals = legal.filter((o) => o.to === m.to && o.from !== m.from && pos.cells[o.from] === pos.cells[m.from]);
    const [file, rank] = nameOf(m.from);
    let apart = '';
    if (rivals.length > 0) {
      if (!rivals.some((o) => nameOf(o.from)[0] === file)) apart = file;
      else if (!rivals.some((o) => nameOf(o.from)[1] === rank)) apart = rank;
      else apart = file + rank;
    }
    text = kind + apart + (takes ? 'x' : '') + nameOf(m.to);
  }
  const after = play(pos, m);
  if (!inCheck(after)) return text;
  return text + (legalMoves(after).length === 0 ? '#' : '+');
}

// The legal move that a typed word means: e2e4, e7e8q, e4, Nf3, exd5, O-O, 0-0, e8=Q; or null.
export function typedMove(pos, word) {
  const plain = (s) => s.replace(/0/g, 'O').replace(/[-+#x=!?\s]/g, '').toLowerCase();
  const legal = legalMoves(pos);
  const exact = legal.filter((m) => uci(m) === word.trim().toLowerCase());
  if (exact.length === 1) return exact[0];
  const cased = legal.filter((m) => san(pos, m, legal).replace(/[+#]/g, '') === word.trim().replace(/[+#!?]/g, ''));
  if (cased.length === 1) return cased[0];
  const loose = legal.filter((m) => plain(san(pos, m, legal)) === plain(word));
  return loose.length === 1 ? loose[0] : null;
}
