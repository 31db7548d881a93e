// What happens over a whole run with the routes to one destination.

// Shares by round, prefix sums of them, and the rounds of breaks, needs, erasures and loops.
class Summary {
  constructor(film, destination) {
    const { run, last } = film;
    Object.assign(this, { film, destination, breaks: [], needs: [], erasures: [], loops: [], finder: new LoopFinder(run) });
    this.flows = run.flows.filter((flow) => flow.destination === destination).map((flow) => flow.node);
    if (!this.flows.length) this.flows = run.nodes.map((_, node) => node).filter((node) => node !== run.target[destination]);
    this.works = new Float64Array(last + 1);  // the sum of the share up to each round
    this.paths = new Float64Array(last + 1);
    const world = new World(run, film.records), now = { far: null, works: 0, paths: 0, isLooping: false };
    for (let round = 1; round <= last; round++) {
      const changed = this.take(world, round);
      if (changed.links || round === 1) now.far = distances(world, destination);
      if (changed.links || changed.hops || round === 1) this.look(world, now);
      this.works[round] = this.works[round - 1] + now.works;
      this.paths[round] = this.paths[round - 1] + now.paths;
      if (now.isLooping) this.loops.push(round);
    }
  }

  // Takes the records of a round in; answers whether links or next hops changed.
  take(world, round) {
    const { run, records, ends } = this.film, row = this.destination * run.count;
    let hops = false, was = null;
    while (world.at < ends[round]) {
      const at = world.at, kind = records.kind[at];
      if (kind === PART || kind === MEND) {
        was ??= new Map();
        if (!was.has(records.a[at])) was.set(records.a[at], world.parted[records.a[at]]);
      } else if (kind === NEED || kind === ROUTE) {
        if (records.b[at] === this.destination) {
          if (kind === NEED) this.mark(this.needs, round);
          else hops = true;
          if (kind === ROUTE && !records.c[at] && world.height[row + records.a[at]]) this.mark(this.erasures, round);
        }
      }
      world.step();
    }
    if (was) this.takeParted(world, round, was);
    return { hops, links: was !== null };
  }

  // A break of a route: a next hop is over a link that was parted in this round.
  takeParted(world, round, was) {
    const { run } = this.film, row = this.destination * run.count;
    for (const [link, before] of was) {
      if (before || !world.parted[link]) continue;
      const [a, b] = run.ends[link];
      if (world.hop[row + a] - 1 === b || world.hop[row + b] - 1 === a) this.mark(this.breaks, round);
    }
  }

  mark(list, round) {
    if (list[list.length - 1] !== round) list.push(round);
  }

  // The shares of a world.
  look(world, now) {
    let good = 0, paths = 0;
    for (const node of this.flows) {
      if (now.far[node] >= 0) paths++;
      if (works(world, node, this.destination)) good++;
    }
    now.works = good / Math.max(this.flows.length, 1);
    now.paths = paths / Math.max(this.flows.length, 1);
    now.isLooping = this.finder.isLooping(world, this.destination);
  }

  // The mean of a share over some rounds.
  mean(sums, from, to) {
    return (sums[to] - sums[from]) / (to - from);
  }

  // The first of a list of rounds after a time, and the last before it.
  after(list, time) {
    return list.find((round) => round > time);
  }

  before(list, time) {
    return list.findLast ? list.findLast((round) => round < time) : list.filter((round) => round < time).pop();
  }
}
