// The legend: a small drawing and its words, line by line.

const LEGEND = [
  ["link up at both ends", (pen, look, a, b) => line(pen, a, b, look.link, 1.8)],
  ["link up at one end, the left one", (pen, look, a, b) => {
    line(pen, a, between(a, b, 0.5), look.link, 1.8);
    line(pen, between(a, b, 0.5), b, look.link, 1.4, [2, 4]);
  }],
  ["link up at no end, not parted", (pen, look, a, b) => line(pen, a, b, look.link, 1.4, [2, 4])],
  ["parted link that an end still holds up", (pen, look, a, b) => line(pen, a, b, look.parted, 1.6, [7, 5])],
  ["next hop", (pen, look, a, b) => arrow(pen, a, b, { colour: look.hop, width: 2.4 })],
  ["stale hop: over a parted link", (pen, look, a, b) => cross(pen, arrow(pen, a, b, { colour: look.wrong, width: 2.4, dash: [8, 5] }), 5, look.wrong)],
  ["loop of next hops, its nodes ringed", (pen, look, a, b) => {
    arrow(pen, a, b, { colour: look.wrong, width: 3.6, bend: 8, gap: 8 });
    ring(pen, a, 6, look.wrong, 4);
  }],
  ["walk of the flow chosen", (pen, look, a, b) => {
    pen.globalAlpha = 0.45;
    line(pen, a, b, look.walk, 10);
    pen.globalAlpha = 1;
  }],
  ["QRY of the round: blue circle", (pen, look, a, b) => packet(pen, "qry", between(a, b, 0.5), 7, look)],
  ["UPD of the round: orange square", (pen, look, a, b) => packet(pen, "upd", between(a, b, 0.5), 7, look)],
  ["CLR of the round: purple triangle", (pen, look, a, b) => packet(pen, "clr", between(a, b, 0.5), 7, look)],
  ["destination", (pen, look, a, b) => disc(pen, between(a, b, 0.5), 7, { fill: FIRST_FILL, isTarget: true, look })],
  ["no height", (pen, look, a, b) => disc(pen, between(a, b, 0.5), 7, { fill: NO_FILL, look })],
  ["reflected level: dashed rim", (pen, look, a, b) => disc(pen, between(a, b, 0.5), 7, { fill: FILLS[0], isReflected: true, look })],
];

function legend(place, look) {
  const width = 4.2 * look.rem, height = 1.7 * look.rem, scale = window.devicePixelRatio || 1;
  place.replaceChildren(...LEGEND.map(([text, body]) => {
    const canvas = make("canvas", { width: width * scale, height: height * scale }), pen = canvas.getContext("2d");
    canvas.style.width = `${width}px`;
    canvas.style.height = `${height}px`;
    pen.scale(scale, scale);
    body(pen, look, [10, height / 2], [width - 12, height / 2]);
    return make("div", {}, canvas, text);
  }));
  place.append(make("p", {}, "Below a node stands its height (tau,oid,r,delta,id), or its delta alone; the colour of a node is its level. ",
    "Chart: the area is the share of routes that work, the line that of routes with a path."));
}
