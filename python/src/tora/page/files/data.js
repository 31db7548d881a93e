// The data of the page: the run, its places, and its records (page/coding.py tells how they are coded).

// Bytes that are read number by number.
class Bytes {
  constructor(text) {
    const plain = atob(text);
    this.at = 0;
    this.bytes = new Uint8Array(plain.length);
    for (let i = 0; i < plain.length; i++) this.bytes[i] = plain.charCodeAt(i);
  }

  // The next number; a BigInt where it is above 2^53.
  number() {
    const from = this.at, first = this.bytes[this.at++];
    if (first < 128) return first;
    let value = first & 127, factor = 128, byte;
    do {
      byte = this.bytes[this.at++];
      value += (byte & 127) * factor;
      factor *= 128;
    } while (byte > 127);
    return value <= Number.MAX_SAFE_INTEGER ? value : this.wide(from);
  }

  // The number that begins at a place and ends before this one.
  wide(from) {
    let value = 0n;
    for (let at = this.at - 1; at >= from; at--) value = value * 128n + BigInt(this.bytes[at] & 127);
    return value;
  }

  // The next number of either sign.
  signed() {
    const value = this.number();
    return value % 2 ? -(value + 1) / 2 : value / 2;
  }
}

// Pairs of numbers that stand once each: levels and lives. The place 0 is that of none.
class Kept {
  constructor() {
    this.values = [null];
    this.places = new Map();
  }

  place(value) {
    const [one, other] = value;
    const key = one < 1e8 && other < 1e7 ? 1e7 * Number(one) + Number(other) : value.join();
    let at = this.places.get(key);
    if (at === undefined) {
      at = this.values.push(value) - 1;
      this.places.set(key, at);
    }
    return at;
  }
}

// What the run is: nodes, destinations and links by their places in the lists, and tables that lead from one to the other.
class Run {
  constructor(given) {
    Object.assign(this, given);
    this.count = this.nodes.length;
    this.nodeAt = new Map(this.nodes.map((id, at) => [id, at]));
    this.destinationAt = new Map(this.destinations.map((id, at) => [id, at]));
    this.target = this.destinations.map((id) => this.nodeAt.get(id) ?? -1);
    this.ends = this.links.map((link) => link.map((id) => this.nodeAt.get(id)));
    this.linkAt = new Int32Array(this.count * this.count);  // the place of the link of two nodes and 1, or 0
    this.near = this.nodes.map(() => []);  // of each node {node, link, end}, end 0 where it is the lower end itself
    this.ends.forEach(([a, b], link) => {
      this.linkAt[a * this.count + b] = this.linkAt[b * this.count + a] = link + 1;
      this.near[a].push({ node: b, link, end: 0 });
      this.near[b].push({ node: a, link, end: 1 });
    });
    this.near.forEach((list) => list.sort((one, other) => one.node - other.node));
    this.flows = this.flows.map(([id, to]) => ({ node: this.nodeAt.get(id), destination: this.destinationAt.get(to) }));
    this.heights = [null];
    this.levelOf = [0];  // of each height the place of its level, original and reflected alike
    this.levels = new Kept();
    this.lives = new Kept();
    this.level(0, 0);
    this.zero = this.destinations.map((id) => this.keepHeight([0, 0, 0, 0, id]));
  }

  // The place of a level (tau, oid): levels stand in the order in which they came up.
  level(tau, oid) {
    return this.levels.place([tau, oid]);
  }

  // Keeps a height; answers its place.
  keepHeight(height) {
    this.levelOf.push(this.level(height[0], height[1]));
    return this.heights.push(height) - 1;
  }

  link(a, b) {
    return this.linkAt[a * this.count + b] - 1;
  }

  height(at) {
    return this.heights[at];
  }
}

// The kinds of records, as records.py has them.
const KINDS = ["need", "part", "mend", "up", "down", "qry", "upd", "clr", "route", "frames"];
const [NEED, PART, MEND, UP, DOWN, QRY, UPD, CLR, ROUTE, FRAMES] = KINDS.keys();

const isBetween = (kind) => kind <= MEND;  // stands between rounds, with the clock of the round that has ended
const isOfLink = (kind) => kind >= PART && kind <= DOWN;
const isPacket = (kind) => kind >= QRY && kind <= CLR;

// The records in columns, with places of nodes, destinations, links and heights for their ids:
// need node destination id; part, mend link; up, down link end life; qry node destination copies; upd .. copies height;
// clr .. copies level; route node destination height hop+1; frames hello data acknowledgement undelivered.
class Records {
  constructor(run, bytes) {
    if (run.kinds.map(([name]) => name).join() !== KINDS.join()) throw new Error("its records are of another version");
    Object.assign(this, { run, bytes, count: run.records, kind: new Uint8Array(run.records) });
    for (const column of ["clock", "a", "b", "c", "d"]) this[column] = new Uint32Array(this.count);
    this.told = new Uint32Array(run.count * 256);  // of each node and destination the height that it told last
    for (let at = 0, clock = 0; at < this.count; at++) {
      const head = bytes.number(), ticks = head >> 4, kind = head & 15;
      clock += ticks < 15 ? ticks : 15 + bytes.number();
      this.kind[at] = kind;
      this.clock[at] = clock;
      if (kind === FRAMES) this.readCounts(at);
      else if (isOfLink(kind)) this.readLink(at, kind);
      else this.readView(at, kind);
    }
  }

  readCounts(at) {
    for (const column of [this.a, this.b, this.c, this.d]) column[at] = this.bytes.number();
  }

  readLink(at, kind) {
    const { run, bytes } = this, first = run.nodeAt.get(bytes.number()), other = run.nodeAt.get(bytes.number());
    this.a[at] = run.link(first, other);
    if (kind === PART || kind === MEND) return;
    this.b[at] = first < other ? 0 : 1;
    this.c[at] = run.lives.place([bytes.number(), bytes.number()]);
  }

  // A record of a node and a destination.
  readView(at, kind) {
    const { run, bytes } = this, node = run.nodeAt.get(bytes.number()), id = bytes.number();
    const destination = run.destinationAt.get(id) ?? 255, view = 256 * node + destination;
    this.a[at] = node;
    this.b[at] = destination;
    if (kind === NEED) {
      this.c[at] = id;
    } else if (kind === ROUTE) {
      this.c[at] = this.readHeight(view);
      const hop = bytes.number();
      this.d[at] = hop ? run.nodeAt.get(hop) + 1 : 0;
    } else {
      this.c[at] = bytes.number();
      if (kind === UPD) this.told[view] = this.d[at] = this.readHeight(view);
      if (kind === CLR) this.d[at] = run.level(bytes.number(), bytes.number());
    }
  }

  // The next height, by its place.
  readHeight(view) {
    const { run, bytes } = this, kind = bytes.number();
    if (kind === 0) return 0;
    if (kind === 1) return this.told[view];
    const tau = bytes.number(), oid = bytes.number(), r = bytes.number(), delta = bytes.signed();
    return run.keepHeight([tau, oid, r, delta, bytes.number()]);
  }
}

// The places of the nodes, in tenths of a metre: x and y of each node, sample by sample.
function readPlaces(run, bytes) {
  const width = 2 * run.count, places = new Int32Array(run.samples * width);
  for (let at = 0; at < places.length; at++) places[at] = bytes.signed() + (at >= width ? places[at - width] : 0);
  return places;
}

function readPage() {
  const run = new Run(JSON.parse(document.getElementById("run").textContent));
  const holder = document.getElementById("trace"), bytes = new Bytes(holder.textContent);
  holder.textContent = "";
  const places = readPlaces(run, bytes);
  return { run, places, records: new Records(run, bytes) };
}
