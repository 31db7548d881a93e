// The picture of the network at a moment.

// Moves points that would cover each other until they are so far apart, or some times.
function apart(points, least) {
  for (let turn = 0; turn < 20; turn++) {
    let isMoved = false;
    for (let i = 1; i < points.length; i++) {
      for (let j = 0; j < i; j++) {
        const one = points[i], other = points[j];
        if (Math.abs(one[0] - other[0]) >= least || Math.abs(one[1] - other[1]) >= least) continue;
        const x = one[0] - other[0] || 0.01 * (i - j), y = one[1] - other[1] || 0.02, length = Math.hypot(x, y);
        if (length >= least) continue;
        const part = ((least - length) / length / 2) * 1.02;
        one[0] += x * part;
        one[1] += y * part;
        other[0] -= x * part;
        other[1] -= y * part;
        isMoved = true;
      }
    }
    if (!isMoved) break;
  }
  return points;
}

class Stage {
  constructor(canvas, film) {
    Object.assign(this, { canvas, film, run: film.run, labels: "auto" });
    const { places, run } = film;
    this.bounds = [0, 1].map((c) => {
      let low = Infinity, high = -Infinity;
      for (let at = c; at < 2 * run.count * run.samples; at += 2) {
        low = Math.min(low, places[at]);
        high = Math.max(high, places[at]);
      }
      return [low, high];
    });
  }

  // Draws what `show` says: world, time, destination, walk, node and link asked for, the record at hand, and what is wanted.
  draw(show, look) {
    const { pen, width, height } = fitted(this.canvas), { run } = this;
    this.size = Math.max(0.55, Math.min(0.85, 5 / Math.sqrt(run.count))) * look.rem;
    this.fit(width, height, look);
    this.points = apart(run.nodes.map((_, node) => this.point(node, show.time)), 2 * this.size + 4);
    this.loops = loopsOf(show.world, show.destination);
    this.loopHops = new Set(this.loops.flat());
    this.drawn = { hops: [], links: [], packets: [], labels: [], loops: this.loops.map((ring) => ring.map((node) => run.nodes[node])) };
    const at = { pen, look, ...show };
    this.drawLinks(at);
    if (show.walk) this.drawWalk(at);
    this.drawTrails(at);
    this.drawHops(at);
    this.drawLabels(at);
    this.drawNodes(at);
    this.drawPackets(at);
  }

  // How places become points: as large as fits, the y axis upwards.
  fit(width, height, look) {
    const [[left, right], [low, high]] = this.bounds, margin = 2.4 * look.rem;
    const scale = Math.min((width - 2 * margin) / (right - left || 1), (height - 2 * margin) / (high - low || 1));
    const x = (width - scale * (right - left)) / 2, y = (height - scale * (high - low)) / 2;
    this.toPoint = ([a, b]) => [x + scale * (a - left), height - y - scale * (b - low)];
  }

  point(node, time) {
    return this.toPoint(this.film.place(node, time));
  }

  drawLinks({ pen, look, world, allLinks, link: asked }) {
    const segments = { whole: [], dotted: [], parted: [], faint: [] }, add = (kind, from, to) => segments[kind].push([from, to]);
    this.run.ends.forEach(([a, b], link) => {
      const from = this.points[a], to = this.points[b], middle = between(from, to, 0.5);
      const low = world.isUp(link, 0), high = world.isUp(link, 1), isParted = world.parted[link] === 1;
      const how = isParted ? (low || high ? "parted, held up" : "parted") : low && high ? "both" : low || high ? "one" : "none";
      if (link === asked) line(pen, from, to, look.asked, 9);
      if (how === "parted" && !allLinks && link !== asked) return;
      this.drawn.links.push([...this.run.links[link], how]);
      if (how === "parted") add("faint", from, to);
      else if (isParted) add("parted", from, to);
      else if (low === high) add(low ? "whole" : "dotted", from, to);
      else for (const [end, isUp] of [[from, low], [to, high]]) add(isUp ? "whole" : "dotted", end, middle);
    });
    lines(pen, segments.whole, look.link, 1.8);
    lines(pen, segments.dotted, look.link, 1.4, [2, 4]);
    lines(pen, segments.parted, look.parted, 1.6, [7, 5]);
    lines(pen, segments.faint, look.edge, 1, [1, 5]);
  }

  drawWalk({ pen, look, walk }) {
    pen.globalAlpha = 0.45;
    walk.slice(1).forEach((node, at) => line(pen, this.points[walk[at]], this.points[node], look.walk, 10));
    pen.globalAlpha = 1;
    walk.slice(1).forEach((node, at) => {
      const [x, y] = between(this.points[walk[at]], this.points[node], 0.72);
      words(pen, String(at + 1), [x + 9, y - 9], look, 0.75 * look.rem, look.walk);
    });
  }

  drawHops({ pen, look, world, destination }) {
    const { run } = this, row = destination * run.count;
    for (let node = 0; node < run.count; node++) {
      const hop = world.hop[row + node] - 1;
      if (hop < 0) continue;
      const link = run.link(node, hop), isStale = world.parted[link] === 1, isLoop = this.loopHops.has(node);
      const middle = arrow(pen, this.points[node], this.points[hop], {
        colour: isStale || isLoop ? look.wrong : look.hop, width: isLoop ? 3.6 : 2.4, dash: isStale ? [8, 5] : [],
        gap: this.size + (run.target[destination] === hop ? 5 : 2), bend: world.hop[row + hop] - 1 === node ? 26 : 0,
      });
      if (isStale) cross(pen, middle, 0.4 * look.rem, look.wrong);
      this.drawn.hops.push([run.nodes[node], run.nodes[hop], isStale ? "stale" : isLoop ? "loop" : "works"]);
    }
  }

  // The heights below the nodes, so many of them as fits.
  drawLabels({ pen, look, world, destination }) {
    const { run, size } = this, row = destination * run.count, most = run.count <= 16 ? "full" : "delta";
    const labels = this.labels === "auto" ? most : this.labels;
    if (labels === "none") return;
    run.nodes.forEach((_, node) => {
      const height = run.height(world.height[row + node]), [x, y] = this.points[node];
      const text = labels === "full" ? heightText(height) : height ? String(height[3]) : "-";
      this.drawn.labels.push(text);
      words(pen, text, [x, y + size + 0.65 * look.rem], look, 0.72 * look.rem);
    });
  }

  drawNodes({ pen, look, world, destination, node: asked, record }) {
    const { run, film, size } = this, row = destination * run.count;
    const acting = record >= 0 && !isOfLink(film.records.kind[record]) ? film.records.a[record] : -1;
    run.nodes.forEach((id, node) => {
      const point = this.points[node], height = run.height(world.height[row + node]);
      if (this.loopHops.has(node)) ring(pen, point, size + 6, look.wrong, 4);
      if (node === asked) ring(pen, point, size + 6, look.asked, 3);
      if (node === acting) ring(pen, point, size + 10, look.faint, 2);
      disc(pen, point, size, {
        fill: fillOf(run, world.height[row + node]), isReflected: height && height[2] === 1, isTarget: node === run.target[destination], look,
      });
      pen.fillStyle = "#111";
      pen.font = `bold ${(id > 99 ? 0.6 : 0.8) * size * 1.2}px system-ui, "DejaVu Sans", sans-serif`;
      pen.textAlign = "center";
      pen.textBaseline = "middle";
      pen.fillText(id, point[0], point[1] + 0.5);
    });
  }

  // The packets of the round that the picture shows, up to this moment.
  *packetsOf({ world, time, destination, allPackets }) {
    const round = Math.min(Math.ceil(time), this.film.last), { kind, b } = this.film.records;
    for (const one of this.film.packets(round)) {
      if (one.at >= world.at) return;
      if (allPackets || b[one.at] === destination) yield { ...one, name: KINDS[kind[one.at]], time: this.film.timeOf(one.at + 1) };
    }
  }

  drawTrails(show) {
    const { pen, look } = show;
    pen.globalAlpha = 0.35;
    for (const { sender, to, name } of this.packetsOf(show)) {
      for (const { node } of to) line(pen, this.points[sender], this.points[node], look[name], 6);
    }
    pen.globalAlpha = 1;
  }

  // While the page is paused, the packets that cross a link in one direction stand one behind another, the first of the round farthest.
  drawPackets(show) {
    const { pen, look, time, isPlaying, record } = show, { run } = this;
    const packets = [...this.packetsOf(show)], count = new Map(), seen = new Map();
    for (const { sender, to } of packets) {
      for (const { node } of to) count.set(`${sender} ${node}`, (count.get(`${sender} ${node}`) ?? 0) + 1);
    }
    for (const { at, sender, to, name, time: sent } of packets) {
      for (const { node } of to) {
        const way = `${sender} ${node}`, before = seen.get(way) ?? 0, all = count.get(way);
        seen.set(way, before + 1);
        const still = all === 1 ? 0.62 : 0.78 - 0.5 * before / (all - 1);
        const part = isPlaying ? 0.2 + 0.6 * Math.min((time - sent) / 0.4, 1) : still;
        packet(pen, name, between(this.points[sender], this.points[node], part), (at === record ? 0.62 : 0.42) * look.rem, look);
        this.drawn.packets.push([name, run.nodes[sender], run.nodes[node]]);
      }
    }
  }

  // The node or link at a point of the picture.
  find(x, y) {
    const near = this.points.map(([a, b], node) => [Math.hypot(a - x, b - y), node]).sort((one, other) => one[0] - other[0]);
    if (near[0][0] <= this.size + 4) return { node: near[0][1] };
    let best = { far: 8 };
    this.drawn.links.forEach(([one, other]) => {
      const a = this.run.nodeAt.get(one), b = this.run.nodeAt.get(other), from = this.points[a], to = this.points[b];
      const square = (to[0] - from[0]) ** 2 + (to[1] - from[1]) ** 2 || 1;
      const part = Math.max(0, Math.min(1, ((x - from[0]) * (to[0] - from[0]) + (y - from[1]) * (to[1] - from[1])) / square));
      const far = Math.hypot(...between(from, to, part).map((c, at) => c - [x, y][at]));
      if (far < best.far) best = { far, link: this.run.link(a, b) };
    });
    return best.link === undefined ? {} : { link: best.link };
  }
}
