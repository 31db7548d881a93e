// What the next hops of a world make: walks, stale hops, loops, and how far nodes are.

const WORKS = 0, STALE = 1, NO_HOP = 2, LOOPING = 3;

// How the route of a node fares, and the nodes of its walk.
function follow(world, node, destination) {
  const { run } = world, row = destination * run.count, target = run.target[destination], walk = [node];
  while (node !== target) {
    const hop = world.hop[row + node] - 1;
    if (hop < 0) return { fare: NO_HOP, walk };
    const link = run.link(node, hop);
    if (world.parted[link]) return { fare: STALE, walk: [...walk, hop], link };
    const again = walk.includes(hop);
    walk.push(hop);
    if (again) return { fare: LOOPING, walk };
    node = hop;
  }
  return { fare: WORKS, walk };
}

// Whether the route of a node works: `follow`, without its walk.
function works(world, node, destination) {
  const { run } = world, row = destination * run.count, target = run.target[destination];
  for (let steps = 0; node !== target; steps++) {
    const hop = world.hop[row + node] - 1;
    if (hop < 0 || steps > run.count || world.parted[run.link(node, hop)]) return false;
    node = hop;
  }
  return true;
}

// The next hops over parted links, as places of their nodes.
function staleNodes(world, destination) {
  const { run } = world, row = destination * run.count, found = [];
  for (let node = 0; node < run.count; node++) {
    const hop = world.hop[row + node] - 1;
    if (hop >= 0 && world.parted[run.link(node, hop)]) found.push(node);
  }
  return found;
}

// The cycles of next hops whose links are all not parted; each begins with its lowest node.
function loopsOf(world, destination) {
  const { run } = world, row = destination * run.count, metFrom = new Int16Array(run.count).fill(-1), loops = [];
  for (let start = 0; start < run.count; start++) {
    const path = [];
    let node = start;
    while (node >= 0 && metFrom[node] < 0) {
      metFrom[node] = start;
      path.push(node);
      node = world.hop[row + node] - 1;
    }
    if (node < 0 || metFrom[node] !== start) continue;
    const ring = path.slice(path.indexOf(node));
    if (ring.some((one, at) => world.parted[run.link(one, ring[(at + 1) % ring.length])])) continue;
    const low = ring.indexOf(Math.min(...ring));
    loops.push([...ring.slice(low), ...ring.slice(0, low)]);
  }
  return loops;
}

// Whether there is a cycle of `loopsOf`, for one world after another: it keeps its lists.
class LoopFinder {
  constructor(run) {
    Object.assign(this, { run, seen: new Int32Array(run.count), stamp: 0 });
  }

  isLooping(world, destination) {
    const { run, seen } = this, row = destination * run.count, first = this.stamp + 1;
    for (let start = 0; start < run.count; start++) {
      if (seen[start] >= first) continue;
      const stamp = ++this.stamp;
      let node = start;
      while (node >= 0 && seen[node] < first) {
        seen[node] = stamp;
        node = world.hop[row + node] - 1;
      }
      if (node >= 0 && seen[node] === stamp && this.isRing(world, row, node)) return true;
    }
    return false;
  }

  // Whether no link of a cycle is parted.
  isRing(world, row, start) {
    let node = start;
    do {
      const hop = world.hop[row + node] - 1;
      if (world.parted[this.run.link(node, hop)]) return false;
      node = hop;
    } while (node !== start);
    return true;
  }
}

// How many hops each node is from the destination over links that are not parted; -1 where there is no path.
function distances(world, destination) {
  const { run } = world, far = new Int16Array(run.count).fill(-1), queue = [];
  if (run.target[destination] >= 0) {
    queue.push(run.target[destination]);
    far[queue[0]] = 0;
  }
  for (let at = 0; at < queue.length; at++) {
    for (const { node, link } of run.near[queue[at]]) {
      if (world.parted[link] || far[node] >= 0) continue;
      far[node] = far[queue[at]] + 1;
      queue.push(node);
    }
  }
  return far;
}

// Whether one height is lower than another.
function isLower(one, other) {
  for (let at = 0; at < 5; at++) {
    if (one[at] < other[at]) return true;
    if (one[at] > other[at]) return false;
  }
  return false;
}
