// The world at each moment: the records folded.

// Heights and next hops by destination and node, parted links, and the life of each end that is up.
class World {
  constructor(run, records) {
    const size = run.count * run.destinations.length;
    Object.assign(this, { run, records, at: 0 });
    this.hop = new Uint16Array(size);  // the next hop's place and 1, or 0
    this.height = new Uint32Array(size);  // the height's place, or 0
    this.parted = new Uint8Array(run.links.length);
    this.up = new Uint32Array(2 * run.links.length);  // by link and end the life's place, or 0
    run.target.forEach((node, d) => {
      if (node >= 0) this.height[d * run.count + node] = run.zero[d];
    });
  }

  // Takes the next record in.
  step() {
    const { kind, a, b, c, d } = this.records, at = this.at++;
    switch (kind[at]) {
      case ROUTE:
        this.height[b[at] * this.run.count + a[at]] = c[at];
        this.hop[b[at] * this.run.count + a[at]] = d[at];
        break;
      case PART: this.parted[a[at]] = 1; break;
      case MEND: this.parted[a[at]] = 0; break;
      case UP: this.up[2 * a[at] + b[at]] = c[at]; break;
      case DOWN: this.up[2 * a[at] + b[at]] = 0; break;
    }
  }

  copy(other) {
    this.at = other.at;
    for (const part of ["hop", "height", "parted", "up"]) this[part].set(other[part]);
  }

  isUp(link, end) {
    return this.up[2 * link + end] > 0;
  }
}

// The whole run: where each round ends, and worlds kept on the way, from which any moment is near.
class Film {
  constructor(run, records, places) {
    Object.assign(this, { run, records, places, kept: [], every: 8192 });
    const world = new World(run, records);
    let now = 1;
    this.ends = [0];  // how many records there are up to the end of each round
    for (let at = 0; at < records.count; at++) {
      now = Math.max(now, records.clock[at] + (isBetween(records.kind[at]) ? 1 : 0));
      while (this.ends.length < now) this.ends.push(at);
      if (at % this.every === 0) this.keep(world);
      world.step();
    }
    this.last = Math.max(run.rounds, now);  // the last round
    while (this.ends.length <= this.last) this.ends.push(records.count);
    if (!this.kept.length) this.keep(world);
  }

  keep(world) {
    const copy = new World(this.run, this.records);
    copy.copy(world);
    this.kept.push(copy);
  }

  // Brings a world to the moment after so many records.
  seek(world, count) {
    const near = this.kept[Math.min(Math.floor(count / this.every), this.kept.length - 1)];
    if (count < world.at || near.at > world.at) world.copy(near);
    while (world.at < count) world.step();
  }

  // The round of a record.
  roundOf(at) {
    let low = 0, high = this.last;
    while (low < high) {
      const middle = (low + high) >> 1;
      if (this.ends[middle] > at) high = middle; else low = middle + 1;
    }
    return low;
  }

  // How many records have happened at a time: a round's records are spread over it.
  countAt(time) {
    const round = Math.min(Math.ceil(time), this.last);
    if (round < 1) return 0;
    const from = this.ends[round - 1];
    return from + Math.floor((time - (round - 1)) * (this.ends[round] - from) + 1e-6);
  }

  // The time at which so many records have happened.
  timeOf(count) {
    if (count <= 0) return 0;
    const round = this.roundOf(count - 1), from = this.ends[round - 1];
    return round - 1 + (count - from) / (this.ends[round] - from);
  }

  // Where a node stands at a time.
  place(node, time) {
    const { places, run } = this, width = 2 * run.count;
    const exact = run.samples > 1 ? Math.min(time / run.sample, run.samples - 1) : 0;
    const sample = Math.floor(exact), part = exact - sample, from = sample * width + 2 * node;
    if (!part) return [places[from], places[from + 1]];
    return [0, 1].map((c) => places[from + c] + part * (places[from + width + c] - places[from + c]));
  }

  // The packets of a round: of each its record, its sender, and the links that it crosses as {node, link}.
  packets(round) {
    if (this.packetsOf === round) return this.found;
    this.scratch ??= new World(this.run, this.records);
    this.found = [];
    this.packetsOf = round;
    if (round < 1) return this.found;
    const { kind, a, c } = this.records;
    this.seek(this.scratch, this.ends[round - 1]);
    for (let at = this.ends[round - 1]; at < this.ends[round]; at++) {
      this.scratch.step();
      if (!isPacket(kind[at]) || !c[at]) continue;
      const to = this.run.near[a[at]].filter(({ link, end }) => this.scratch.isUp(link, end));
      this.found.push({ at, sender: a[at], to });
    }
    return this.found;
  }
}
