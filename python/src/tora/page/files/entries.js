// What a node knows of its neighbours' heights. A trace does not tell when a packet is taken: here it is taken as it is
// broadcast, or where a link is parted or not up at both ends in one life, as soon as it is mended and up. Where the node erases
// its entries in the round in which one was told, its next hop tells whether that one came before or after.
class Entries {
  constructor(film, node, destination) {
    Object.assign(this, { film, run: film.run, records: film.records, node, destination });
    this.clear();
  }

  clear() {
    this.at = 0;
    this.rows = new Map(this.run.near[this.node].map(({ node, link, end }) => [link, {
      node, link, end, own: 0, peer: 0, isParted: false, entry: 0, since: 0, late: 0, waiting: [],
    }]));
    this.byNode = new Map([...this.rows.values()].map((row) => [row.node, row]));
  }

  // The rows of the neighbours whose link is up, after so many records.
  upTo(count) {
    if (count < this.at) this.clear();
    while (this.at < count) this.step();
    return [...this.rows.values()].filter((row) => row.own);
  }

  step() {
    const { kind, a, b, c, d } = this.records, at = this.at++, what = kind[at];
    if (what === UPD || what === CLR) {
      if (b[at] === this.destination) this.hear(a[at], what, d[at]);
    } else if (what === ROUTE) {
      const row = a[at] === this.node && b[at] === this.destination && d[at] ? this.byNode.get(d[at] - 1) : null;
      if (row && !row.entry) row.entry = row.late;
    } else if (isOfLink(what)) {
      const row = this.rows.get(a[at]);
      if (row) this.change(row, what, b[at], c[at]);
    }
  }

  // A packet of a node: what a neighbour sends waits, and a clear of the node itself erases its entries.
  hear(sender, kind, value) {
    if (sender === this.node && kind === CLR) {
      for (const row of this.rows.values()) {
        row.late = this.film.ends[this.film.roundOf(this.at - 1) - 1] <= row.since ? row.entry : 0;
        this.erase(row);
      }
    }
    const row = this.byNode.get(sender);
    if (!row || !row.peer) return;
    row.waiting.push({ kind, value });
    this.deliver(row);
  }

  change(row, kind, end, life) {
    if (kind === PART || kind === MEND) {
      row.isParted = kind === PART;
    } else if (end === row.end) {
      row.own = kind === UP ? life : 0;
      row.late = 0;
      row.entry = kind === UP && row.node === this.run.target[this.destination] ? this.run.zero[this.destination] : 0;
    } else {
      row.peer = kind === UP ? life : 0;
      row.waiting = [];
    }
    this.deliver(row);
  }

  // Takes what waits, where both ends are up in one life.
  deliver(row) {
    if (row.isParted || !row.own || !row.peer) return;
    const [x, y] = this.run.lives.values[row.own], [other, again] = this.run.lives.values[row.peer];
    if (x !== again || y !== other) return;
    for (const { kind, value } of row.waiting.splice(0)) {
      if (kind === UPD) Object.assign(row, { entry: value, since: this.at - 1, late: 0 });
      else for (const each of this.rows.values()) this.clearLevel(each, this.run.levels.values[value]);
    }
  }

  clearLevel(row, [tau, oid]) {
    const height = this.run.height(row.entry);
    if (height && height[0] === tau && height[1] === oid && height[2] === 1) this.erase(row);
  }

  erase(row) {
    if (row.node !== this.run.target[this.destination]) row.entry = 0;
  }
}

// Which way a link leads: downstream, upstream, or undirected.
function directionOf(run, own, entry) {
  if (!entry) return "undirected";
  return !own || isLower(run.height(entry), run.height(own)) ? "downstream" : "upstream";
}

// The next hop that entries make: the downstream neighbour with the lowest one, or -1.
function hopOf(run, own, rows) {
  let best = null;
  for (const row of rows) {
    if (directionOf(run, own, row.entry) !== "downstream") continue;
    if (!best || isLower(run.height(row.entry), run.height(best.entry))) best = row;
  }
  return best ? best.node : -1;
}
