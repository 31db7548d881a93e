// The page: its controls, and what they show.

const byId = (id) => document.getElementById(id);

class Page {
  constructor() {
    const { run, places, records } = readPage();
    this.run = run;
    this.film = new Film(run, records, places);
    this.world = new World(run, records);
    this.time = new Time(this.film, () => this.update());
    this.stage = new Stage(byId("picture"), this.film);
    this.strip = new Strip(byId("chart"), this.film);
    this.ask = new Ask(this.film, (record) => this.time.at(record));
    this.summaries = new Map();
    Object.assign(this, { destination: 0, flow: -1, node: -1, link: -1, look: lookOf(), isLaid: false });
    byId("all-links").checked = run.links.length <= 12;
    this.lists();
    this.controls();
    this.places();
    this.keys();
    this.fromAddress();
    this.isReady = true;
    new ResizeObserver(() => this.resize()).observe(byId("stage"));
    window.matchMedia("(prefers-color-scheme: dark)").addEventListener("change", () => this.lay());
    window.addEventListener("hashchange", () => this.fromAddress());
    this.lay();
  }

  get summary() {
    if (!this.summaries.has(this.destination)) this.summaries.set(this.destination, new Summary(this.film, this.destination));
    return this.summaries.get(this.destination);
  }

  // The choices of destination, flow, node and link.
  lists() {
    const { run } = this, none = () => make("option", { value: -1 }, "-");
    const option = (text, value) => make("option", { value }, text);
    byId("destination").append(...run.destinations.map((id, at) => option(id, at)));
    byId("flow").append(none(), ...run.flows.map(({ node, destination }, at) => option(`${run.nodes[node]} to ${run.destinations[destination]}`, at)));
    byId("node").append(none(), ...run.nodes.map((id, at) => option(id, at)));
    byId("link").append(none(), ...run.links.map((link, at) => option(link.join("-"), at)));
    byId("slider").max = this.film.last;
  }

  controls() {
    const { time } = this, on = (id, what, body) => byId(id).addEventListener(what, body);
    on("destination", "change", (event) => this.chooseDestination(Number(event.target.value)));
    on("flow", "change", (event) => this.chooseFlow(Number(event.target.value)));
    on("node", "change", (event) => this.choose({ node: Number(event.target.value) }));
    on("link", "change", (event) => this.choose({ link: Number(event.target.value) }));
    on("labels", "change", (event) => { this.stage.labels = event.target.value; this.update(); });
    for (const id of ["all-packets", "all-links"]) on(id, "change", () => this.update());
    on("slider", "input", (event) => this.jump(Number(event.target.value)));
    on("speed", "change", (event) => { time.speed = Number(event.target.value); });
    on("play", "click", () => this.toggle());
    on("back", "click", () => time.rounds(-1));
    on("on", "click", () => time.rounds(1));
    on("event-back", "click", () => time.event(-1));
    on("event-on", "click", () => time.event(1));
    on("first", "click", () => this.jump(0));
    on("end", "click", () => this.jump(this.film.last));
    on("last-break", "click", () => this.toBreak(-1));
    on("next-break", "click", () => this.toBreak(1));
    on("theme", "click", () => this.turnTheme());
    on("smaller", "click", () => this.scaleText(1 / 1.15));
    on("larger", "click", () => this.scaleText(1.15));
    on("table-part", "toggle", () => this.tellMore());
  }

  // Clicks on the picture and the chart.
  places() {
    byId("picture").addEventListener("click", (event) => this.choose(this.stage.find(event.offsetX, event.offsetY)));
    const chart = byId("chart");
    chart.addEventListener("pointerdown", (event) => { this.jump(this.strip.roundAt(event.offsetX, event.offsetY)); });
    chart.addEventListener("pointermove", (event) => {
      if (event.buttons) this.jump(this.strip.roundAt(event.offsetX, event.offsetY));
    });
  }

  keys() {
    document.addEventListener("keydown", (event) => {
      const isOther = event.target.matches("select, summary, input[type=checkbox]");
      if (event.ctrlKey || event.metaKey || event.altKey || isOther) return;
      const { time } = this, by = (step) => (event.shiftKey ? time.event(step) : time.rounds(step));
      const bodies = {
        " ": () => this.toggle(), ArrowRight: () => by(1), ArrowLeft: () => by(-1), "[": () => this.toBreak(-1), "]": () => this.toBreak(1),
        Home: () => this.jump(0), End: () => this.jump(this.film.last),
      };
      if (!bodies[event.key]) return;
      event.preventDefault();
      bodies[event.key]();
    });
    // space plays, also where a button has the focus; Enter presses the button
    document.addEventListener("keyup", (event) => { if (event.key === " " && event.target.matches("button")) event.preventDefault(); });
  }

  // The address may say where to begin: #round=340&destination=7&flow=3-7&node=3
  fromAddress() {
    const words = new URLSearchParams(location.hash.slice(1)), { run } = this;
    const destination = run.destinationAt.get(Number(words.get("destination")));
    if (destination !== undefined) this.chooseDestination(destination);
    const named = (words.get("flow") ?? "").split("-").map(Number);
    const flow = run.flows.findIndex((one) => run.nodes[one.node] === named[0] && run.destinations[one.destination] === named[1]);
    if (flow >= 0) this.chooseFlow(flow);
    const node = run.nodeAt.get(Number(words.get("node")));
    if (node !== undefined) this.choose({ node });
    if (/^\d+$/.test(words.get("round") ?? "")) this.jump(Number(words.get("round")));
  }

  chooseDestination(destination) {
    this.destination = destination;
    if (this.flow >= 0 && this.run.flows[this.flow].destination !== destination) this.flow = -1;
    this.lay();
  }

  chooseFlow(flow) {
    this.flow = flow;
    if (flow >= 0) {
      this.destination = this.run.flows[flow].destination;
      byId("walk-part").open = true;
    }
    this.lay();
  }

  choose({ node = -1, link = -1 }) {
    Object.assign(this, { node, link });
    byId("ask-part").open = true;
    this.update();
  }

  jump(time) {
    this.time.pause();
    this.time.go(time);
  }

  toggle() {
    if (this.time.isPlaying) this.time.pause(); else this.time.play();
  }

  toBreak(by) {
    const { breaks } = this.summary, round = by > 0 ? this.summary.after(breaks, this.time.round) : this.summary.before(breaks, this.time.round);
    if (round !== undefined) this.jump(round);
  }

  turnTheme() {
    const themes = ["auto", "dark", "light"], root = document.documentElement;
    const next = themes[(themes.indexOf(root.dataset.theme ?? "auto") + 1) % themes.length];
    if (next === "auto") delete root.dataset.theme; else root.dataset.theme = next;
    byId("theme").textContent = `colours: ${next}`;
    this.lay();
  }

  scaleText(by) {
    const root = document.documentElement;
    root.style.fontSize = `${Math.max(8, Math.min(40, parseFloat(getComputedStyle(root).fontSize) * by))}px`;
    this.lay();
  }

  // Lays out what does not change with time, and draws.
  lay() {
    if (!this.isReady) return;
    this.look = lookOf();
    fit(byId("picture"));
    fit(byId("chart"));
    this.strip.lay(this.summary, this.look);
    legend(byId("legend"), this.look);
    byId("about").replaceChildren(...this.ask.about(this.summary));
    const { width, height } = byId("stage").getBoundingClientRect();
    Object.assign(this, { isLaid: true, size: `${width} ${height}` });
    this.update();
  }

  // Lays out anew where the size of the picture is another.
  resize() {
    const { width, height } = byId("stage").getBoundingClientRect(), size = `${width} ${height}`;
    if (this.size === size) return;
    this.size = size;
    this.lay();
  }

  // Draws the moment, once a frame at most; while it plays the lists are told a few times a second.
  update() {
    if (!this.isLaid) return;
    this.isDue ||= (requestAnimationFrame(() => { this.isDue = false; this.draw(); }), true);
  }

  // Draws the moment at once.
  draw() {
    const { film, world, time, run, flow } = this;
    film.seek(world, time.count);
    const walk = flow >= 0 ? follow(world, run.flows[flow].node, this.destination).walk : null;
    this.stage.draw({
      world, walk, time: time.now, destination: this.destination, node: this.node, link: this.link, record: time.record,
      isPlaying: time.isPlaying, allPackets: byId("all-packets").checked, allLinks: byId("all-links").checked,
    }, this.look);
    this.strip.draw(time.now, this.look);
    const now = performance.now(), isDue = (last, every) => !time.isPlaying || now - (this[last] ?? 0) > every;
    if (isDue("toldNowAt", 100)) {
      this.toldNowAt = now;
      this.tellNow();
    }
    if (isDue("toldMoreAt", 300)) {
      this.toldMoreAt = now;
      this.tellMore();
    }
  }

  // The slider, and the line below the picture.
  tellNow() {
    byId("slider").value = this.time.round;
    byId("play").textContent = this.time.isPlaying ? "pause" : "play";
    const { film, world, time } = this, from = film.ends[Math.max(time.round - 1, 0)], round = film.ends[time.round] - (time.round ? from : 0);
    const stale = staleNodes(world, this.destination).length, loops = this.stage.loops.length;
    const place = time.now < time.round ? `, record ${world.at - from} of ${round}` : "";
    const told = byId("told");
    told.replaceChildren(`round ${time.round} of ${film.last}${place}; `, make("span", { className: stale ? "wrong" : "" }, `${stale} stale`), ", ",
      make("span", { className: loops ? "wrong" : "" }, `${loops} loop${loops === 1 ? "" : "s"}`));
    if (time.record >= 0) told.append(`; ${this.ask.tell(time.record)}`);
  }

  tellMore() {
    const { ask, world, run } = this;
    byId("destination").value = this.destination;
    for (const id of ["flow", "node", "link"]) byId(id).value = this[id];
    byId("levels").replaceChildren(...ask.levels(this.destination, world));
    byId("walk").replaceChildren(...(this.flow >= 0 ? ask.flow(run.flows[this.flow], world) : [make("p", {}, "Choose a flow above.")]));
    if (this.node >= 0) byId("answer").replaceChildren(...ask.node(this.node, this.destination, world, this.time.round));
    else if (this.link >= 0) byId("answer").replaceChildren(...ask.link(this.link, world));
    else byId("answer").replaceChildren(make("p", {}, "Click a node or a link of the picture, or choose one."));
    byId("table").replaceChildren(...(byId("table-part").open ? [ask.table(this.destination, world)] : []));
  }
}

try {
  window.tora = new Page();
  window.tora.readyAt = performance.now();
} catch (cause) {
  byId("told").textContent = `The page can't be played: ${cause.message}`;
  throw cause;
}
