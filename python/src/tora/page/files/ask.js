// What the page tells beside the picture: of a node, of a link, of a flow, of the levels, and of the whole run.

const MOST_LISTED = 400;

// Makes an element with attributes and what it holds.
function make(tag, given = {}, ...children) {
  const element = document.createElement(tag);
  Object.assign(element, given);
  element.append(...children);
  return element;
}

function tableOf(names, rows) {
  const cells = (tag, values) => make("tr", {}, ...values.map((value) => make(tag, {}, String(value))));
  return make("table", {}, cells("th", names), ...rows.map((row) => cells("td", row)));
}

class Ask {
  // `go` leads to a record.
  constructor(film, go) {
    Object.assign(this, { film, run: film.run, records: film.records, go });
  }

  // A record in words.
  tell(at) {
    const { run, records } = this, name = KINDS[records.kind[at]];
    const [a, b, c, d] = ["a", "b", "c", "d"].map((column) => records[column][at]);
    if (name === "frames") return `datagrams: ${a} HELLO, ${b} DATA, ${c} ACK, ${d} over parted links`;
    if (name === "part" || name === "mend") return `link ${run.links[a].join("-")} is ${name === "part" ? "parted" : "mended"}`;
    if (name === "up" || name === "down") {
      const [own, other] = b ? [...run.links[a]].reverse() : run.links[a];
      return `node ${own}: link to ${other} ${name}, life {${run.lives.values[c].join(", ")}}`;
    }
    const node = run.nodes[a], destination = run.destinations[b] ?? c;
    if (name === "need") return `node ${node} needs a route to ${destination}`;
    if (name === "route") return `node ${node}, to ${destination}: height ${heightText(run.height(c))}, next hop ${d ? run.nodes[d - 1] : "-"}`;
    const what = name === "upd" ? ` ${heightText(run.height(d))}` : name === "clr" ? ` (${run.levels.values[d].join(",")},1)` : "";
    return `node ${node} sends ${name.toUpperCase()}${what} for ${destination} to ${c} neighbour${c === 1 ? "" : "s"}`;
  }

  // The records of a node, or of a link: by their places, ascending.
  listOf(node, link) {
    const key = `${node} ${link}`, { records } = this;
    if (this.listKey === key) return this.list;
    this.listKey = key;
    this.list = [];
    for (let at = 0; at < records.count; at++) {
      if (records.kind[at] === FRAMES) continue;
      const place = records.a[at], ofLink = isOfLink(records.kind[at]);
      if (link >= 0 ? ofLink && place === link : ofLink ? this.run.ends[place].includes(node) : place === node) this.list.push(at);
    }
    return this.list;
  }

  // A list of records that jumps: those near the moment.
  jumps(list, count) {
    let now = list.findIndex((at) => at >= count);
    if (now < 0) now = list.length;
    const from = Math.max(0, now - MOST_LISTED / 2), shown = list.slice(from, from + MOST_LISTED), box = make("div", { className: "list" });
    for (const at of shown) {
      const button = make("button", { type: "button" }, `${this.film.roundOf(at)}: ${this.tell(at)}`);
      button.className = at === count - 1 ? "now" : at < count ? "past" : "";
      button.dataset.record = at;
      button.onclick = () => this.go(at);
      box.append(button);
    }
    const some = list.length > shown.length ? `, ${shown.length} of them here` : "";
    setTimeout(() => { box.scrollTop = Math.max(0, (now - from) / Math.max(shown.length, 1) * box.scrollHeight - box.clientHeight / 2); });
    return [make("p", {}, `${list.length} records${some}; a click goes there`), box];
  }

  // What is known of a node.
  node(node, destination, world, round) {
    const { run } = this, id = run.nodes[node], row = destination * run.count + node, rows = [];
    run.destinations.forEach((to, d) => {
      const at = d * run.count + node;
      rows.push([to, heightText(run.height(world.height[at])), world.hop[at] ? run.nodes[world.hop[at] - 1] : "-"]);
    });
    const known = this.entries(node, destination, world), hop = world.hop[row] - 1;
    const other = "By these the next hop would be another: a packet was late, lost, or is of an older run of a node.";
    const list = known.map((each) => [
      run.nodes[each.node], heightText(run.height(each.entry)), directionOf(run, world.height[row], each.entry),
      each.node === hop ? "next hop" : "", world.parted[each.link] ? "parted" : "",
    ]);
    return [
      make("p", {}, make("b", {}, `Node ${id}`), `, round ${round}`),
      tableOf(["destination", "height", "next hop"], rows),
      make("p", {}, `Entries for ${run.destinations[destination]}, as its neighbours told them:`),
      list.length ? tableOf(["neighbour", "entry", "link", "", ""], list) : make("p", {}, "no link is up"),
      ...(this.agrees(node, destination, world) ? [] : [make("p", {}, other)]),
      ...this.jumps(this.listOf(node, -1), world.at),
    ];
  }

  entries(node, destination, world) {
    if (!this.book || this.book.node !== node || this.book.destination !== destination) {
      this.book = new Entries(this.film, node, destination);
    }
    return this.book.upTo(world.at);
  }

  // Whether the next hop that the entries make is the one that the trace tells.
  agrees(node, destination, world) {
    const at = destination * this.run.count + node;
    return node === this.run.target[destination] || hopOf(this.run, world.height[at], this.entries(node, destination, world)) === world.hop[at] - 1;
  }

  // What is known of a link: how it is, and each life at each end.
  link(link, world) {
    const { run, records, film } = this, [a, b] = run.links[link], lives = [[], []];
    const list = this.listOf(-1, link);
    for (const at of list) {
      const kind = records.kind[at], side = lives[records.b[at]], last = side[side.length - 1];
      if ((kind === UP || kind === DOWN) && last && last.to === undefined) last.to = film.roundOf(at);
      if (kind === UP) side.push({ life: run.lives.values[records.c[at]], from: film.roundOf(at) });
    }
    const rows = lives.flatMap((side, end) => side.map(({ life, from, to }) => [run.links[link][end], `{${life.join(", ")}}`, from, to ?? "-"]));
    const ends = [0, 1].map((end) => `${world.isUp(link, end) ? "up" : "down"} at ${run.links[link][end]}`).join(", ");
    return [
      make("p", {}, make("b", {}, `Link ${a}-${b}`), `: ${world.parted[link] ? "parted" : "not parted"}, ${ends}`),
      rows.length ? tableOf(["end", "life", "up in round", "down in round"], rows.slice(-60)) : make("p", {}, "no life came up"),
      ...this.jumps(list, world.at),
    ];
  }

  // How a flow fares, hop by hop, and why it ends.
  flow({ node, destination }, world) {
    const { run } = this, { fare, walk, link } = follow(world, node, destination), name = (at) => run.nodes[at];
    const far = distances(world, destination)[node], last = name(walk[walk.length - 1]), hops = walk.length - 1;
    const holder = hops ? name(walk[hops - 1]) : last;
    const why = [
      `works: ${hops} hop${hops === 1 ? "" : "s"}`,
      link === undefined ? "" : `is stale: the link ${run.links[link].join("-")} is parted, and node ${holder} has not noticed`,
      `ends: node ${last} has no next hop`,
      `loops: it comes back to node ${last}`,
    ][fare];
    const path = far < 0 ? "no path stands" : `the shortest path has ${far} hop${far === 1 ? "" : "s"}`;
    return [make("p", {}, make("b", {}, `${name(node)} to ${run.destinations[destination]}`), `: ${walk.map(name).join(" > ")}`),
      make("p", { className: fare === WORKS ? "" : "wrong" }, `${why}; ${path}`)];
  }

  // The levels of the heights that stand.
  levels(destination, world) {
    const { run } = this, row = destination * run.count, found = new Map();
    for (let node = 0; node < run.count; node++) {
      const place = world.height[row + node], height = run.height(place), key = height ? height.slice(0, 3).join() : "";
      found.set(key, { place, height, count: (found.get(key)?.count ?? 0) + 1 });
    }
    return [...found.entries()].sort(([one], [other]) => (one < other ? -1 : 1)).map(([key, { place, height, count }]) => {
      const swatch = make("i", { className: "swatch" + (height && height[2] ? " reflected" : "") });
      swatch.style.background = fillOf(run, place);
      return make("span", {}, swatch, `${key ? `level (${key})` : "no height"}: ${count}`);
    });
  }

  // Height and next hop of every node, for those who can't see the picture.
  table(destination, world) {
    const { run } = this, row = destination * run.count;
    return tableOf(["node", "height", "next hop"], run.nodes.map((id, node) => [
      id, heightText(run.height(world.height[row + node])), world.hop[row + node] ? run.nodes[world.hop[row + node] - 1] : "-",
    ]));
  }

  // What the run is.
  about(summary) {
    const { run, film } = this, { last } = film;
    const rows = [["nodes", run.count], ["links", run.links.length], ["rounds", last], ["records", run.records]];
    if (run.times) rows.push(["times (HELLO, silence, retry, tries)", run.times.join(", ")]);
    if (run.seed !== null) rows.push(["seed", run.seed]);
    const share = (sums) => `${(100 * summary.mean(sums, 0, Math.max(last, 1))).toFixed(1)} %`;
    rows.push(["routes that work", share(summary.works)], ["with a path", share(summary.paths)]);
    rows.push(["breaks", summary.breaks.length], ["rounds with an erasure", summary.erasures.length], ["rounds with a loop", summary.loops.length]);
    const keys = "space plays; arrows go by a round, with shift by an event; [ and ] go to the last and next break; Home and End";
    const whose = "Shares, breaks, erasures and loops are of the destination chosen.";
    return [tableOf(["", ""], rows), make("p", {}, whose), make("p", {}, `Keys: ${keys}.`)];
  }
}
