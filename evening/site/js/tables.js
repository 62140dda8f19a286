// The tables of the hall's screen: the first ten stand, the others turn page by page, and then the teams.
const PAGE_MS = 10000, TABLE_MS = 2000, TEAMS_MS = 5000;
const $ = (id) => document.getElementById(id);

export class Tables {
  constructor(ask) {
    this.ask = ask;
    this.ranks = new Map(); // name -> rank, of the pages seen
    this.clear();
  }

  clear() {
    this.ranks.clear();
    Object.assign(this, { total: 0, page: 1, since: 0, held: false, heard: -Infinity, sweep: 0, top: [], teams: [], teamsHeard: -Infinity, final: null });
  }

  async hear() {
    const now = performance.now();
    if (now - this.teamsHeard > TEAMS_MS) {
      this.teamsHeard = now;
      this.teams = (await this.ask('GET', 'teams')).body.teams;
    }
    if (now - this.heard < TABLE_MS) return;
    this.heard = now;
    this.top = await this.hearPage(0);
    fill($('top').tBodies[0], this.top.map(playerRow));
    if (this.page > 0 && this.page <= this.lastPage) this.fillPage(await this.hearPage(this.page));
    if (this.lastPage > 1) await this.hearPage(this.sweep = this.sweep % this.lastPage + 1); // for the ranks beside the boards
  }

  async hearPage(k) {
    const t = (await this.ask('GET', 'standing/' + k)).body;
    this.total = t.total;
    for (const r of t.players) this.ranks.set(r.name, r.rank);
    return t.players;
  }

  // The table after the host has closed.
  setFinal(table) {
    this.final = table;
    [this.total, this.teams, this.top] = [table.rows.length, table.teams, table.rows.slice(0, 10)];
    fill($('top').tBodies[0], this.top.map(playerRow));
    this.turn(0);
  }

  get lastPage() {
    return Math.max(0, Math.ceil(this.total / 10) - 1);
  }

  // Turns the page by so many, or where its time is over. True where a page of players is to be heard for it.
  turn(by) {
    const pages = this.lastPage + Math.ceil(this.teams.length / 10), now = performance.now();
    $('turning').hidden = pages === 0;
    if (pages === 0) return false;
    const step = by || (this.held || now - this.since < PAGE_MS ? 0 : 1);
    if (step === 0 && this.page <= pages) return this.fillKnown();
    this.page = (this.page - 1 + step + pages) % pages + 1;
    this.since = now;
    $('bar').getAnimations?.().forEach((a) => a.cancel());
    if (pages > 1 && !this.held) $('bar').animate?.([{ width: '0' }, { width: '100%' }], { duration: PAGE_MS });
    if (this.fillKnown()) return false;
    this.heard = -Infinity;
    return true;
  }

  // Fills the page from what is known without asking, and says whether it could.
  fillKnown() {
    if (this.page > this.lastPage) {
      const k = this.page - this.lastPage - 1;
      $('page-name').textContent = 'Teams';
      fill($('page'), this.teams.slice(10 * k, 10 * k + 10).map((t) => row([t.rank + 1, t.name, '', '', t.performance, t.points])));
    } else if (this.final) this.fillPage(this.final.rows.slice(10 * this.page, 10 * this.page + 10));
    else return false;
    return true;
  }

  fillPage(rows) {
    $('page-name').textContent = `Places ${this.page * 10 + 1} to ${Math.min(this.total, this.page * 10 + 10)} of ${this.total}`;
    fill($('page'), rows.map(playerRow));
  }

  hold() {
    this.held = !this.held;
    $('hold').setAttribute('aria-pressed', this.held);
    $('bar').getAnimations?.().forEach((a) => a.cancel());
  }

  first(n) {
    return this.top.slice(0, n);
  }

  winners() {
    return this.teams.length > 0 ? `${this.teams[0].name} win with ${this.teams[0].points} points` : '';
  }

  drawTeams(line, done) {
    line.hidden = this.teams.length === 0 || done;
    line.replaceChildren(...this.teams.slice(0, 4)
      .map((t) => Object.assign(document.createElement('span'), { textContent: `${t.rank + 1}. ${t.name} ${t.points}` })));
  }
}

function fill(body, rows) {
  body.replaceChildren(...rows);
}

function row(cells, fire) {
  const tr = document.createElement('tr');
  cells.forEach((text, i) => {
    const td = document.createElement('td');
    td.textContent = text;
    if (i !== 1) td.className = 'num';
    if (i === 1 && fire) td.classList.add('on-fire');
    tr.append(td);
  });
  return tr;
}

const playerRow = (r) => row([r.rank + 1, r.name, r.rating, r.games, r.games ? r.performance : '–', r.points], r.fire);
