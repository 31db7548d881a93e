// Colours, texts and small drawings that the picture, the chart and the legend share.

const FILLS = ["#77aadd", "#eedd88", "#ffaabb", "#44bb99", "#ee8866", "#bbcc33", "#99ddff", "#c9a6e4"];
const FIRST_FILL = "#ffffff", NO_FILL = "#a9a9a9";

// The colours of the page as they are now, and the size of its text in pixels.
function lookOf() {
  const style = getComputedStyle(document.documentElement), look = { rem: parseFloat(style.fontSize) };
  for (const name of ["ground", "ink", "faint", "edge", "link", "parted", "hop", "wrong", "walk", "asked", "query", "update",
    "clear", "works", "path"]) look[name] = style.getPropertyValue("--" + name).trim();
  look.qry = look.query;
  look.upd = look.update;
  look.clr = look.clear;
  return look;
}

function heightText(height) {
  return height ? `(${height.join(",")})` : "-";
}

// The colour of a height's level; the two levels of one failure, original and reflected, have one.
function fillOf(run, place) {
  if (!place) return NO_FILL;
  const level = run.levelOf[place];  // the first is (0,0)
  return level === 1 ? FIRST_FILL : FILLS[(level - 2) % FILLS.length];
}

// Sets a canvas to the size of its box; asking for it anew at each picture would lay out the page each time.
function fit(canvas) {
  const box = canvas.parentElement.getBoundingClientRect(), scale = window.devicePixelRatio || 1;
  const width = Math.round(box.width * scale), height = Math.round(box.height * scale);
  if (canvas.width !== width || canvas.height !== height) Object.assign(canvas, { width, height });
  canvas.fits = { scale, width: box.width, height: box.height };
}

// The context of a canvas in CSS pixels, cleared.
function fitted(canvas) {
  const { scale, width, height } = canvas.fits, pen = canvas.getContext("2d");
  pen.setTransform(scale, 0, 0, scale, 0, 0);
  pen.clearRect(0, 0, width, height);
  return { pen, width, height };
}

// Segments of one kind, as one path.
function lines(pen, segments, colour, width, dash = []) {
  pen.setLineDash(dash);
  pen.strokeStyle = colour;
  pen.lineWidth = width;
  pen.beginPath();
  for (const [from, to] of segments) {
    pen.moveTo(...from);
    pen.lineTo(...to);
  }
  pen.stroke();
  pen.setLineDash([]);
}

function line(pen, from, to, colour, width, dash = []) {
  lines(pen, [[from, to]], colour, width, dash);
}

// The point between two at a part of the way.
function between(from, to, part) {
  return [from[0] + part * (to[0] - from[0]), from[1] + part * (to[1] - from[1])];
}

// An arrow that ends `gap` before its target and begins `gap` behind its start, bent to the left by `bend`; answers its middle.
function arrow(pen, from, to, { colour, width, dash = [], gap = 0, bend = 0 }) {
  const x = to[0] - from[0], y = to[1] - from[1], length = Math.hypot(x, y) || 1, unit = [x / length, y / length];
  const middle = [(from[0] + to[0]) / 2 + unit[1] * bend, (from[1] + to[1]) / 2 - unit[0] * bend];
  const way = (point) => {
    const far = Math.hypot(middle[0] - point[0], middle[1] - point[1]) || 1;
    return between(point, middle, Math.min(gap / far, 0.9));
  };
  const start = way(from), tip = way(to), head = 3 * width + 4;
  const back = Math.atan2(tip[1] - middle[1], tip[0] - middle[0]);
  pen.setLineDash(dash);
  pen.strokeStyle = pen.fillStyle = colour;
  pen.lineWidth = width;
  pen.beginPath();
  pen.moveTo(...start);
  pen.quadraticCurveTo(...middle, tip[0] - head * 0.6 * Math.cos(back), tip[1] - head * 0.6 * Math.sin(back));
  pen.stroke();
  pen.setLineDash([]);
  pen.beginPath();
  pen.moveTo(...tip);
  for (const turn of [0.42, -0.42]) pen.lineTo(tip[0] - head * Math.cos(back + turn), tip[1] - head * Math.sin(back + turn));
  pen.fill();
  return between(between(start, tip, 0.5), middle, 0.5);
}

// The cross on a stale hop.
function cross(pen, [x, y], size, colour) {
  for (const turn of [1, -1]) line(pen, [x - size, y - turn * size], [x + size, y + turn * size], colour, size / 2);
}

// The sign of a packet: a circle for QRY, a square for UPD, a triangle for CLR, with its letter.
function packet(pen, kind, [x, y], size, look) {
  pen.fillStyle = look[kind];
  pen.strokeStyle = look.ground;
  pen.lineWidth = 1.5;
  pen.beginPath();
  if (kind === "qry") pen.arc(x, y, size, 0, 7);
  else if (kind === "upd") pen.rect(x - 0.9 * size, y - 0.9 * size, 1.8 * size, 1.8 * size);
  else for (const turn of [0, 1, 2]) pen.lineTo(x + 1.35 * size * Math.sin(2.094 * turn), y - 1.35 * size * Math.cos(2.094 * turn));
  pen.closePath();
  pen.fill();
  pen.stroke();
  pen.fillStyle = kind === "upd" ? "#000" : look.ground;
  pen.font = `bold ${1.35 * size}px sans-serif`;
  pen.textAlign = "center";
  pen.textBaseline = "middle";
  pen.fillText(kind[0].toUpperCase(), x, y + (kind === "clr" ? 0.2 * size : 0));
}

// A node: its colour, a dashed rim for a reflected level, a second rim for the destination.
function disc(pen, [x, y], size, { fill, isReflected, isTarget, look, rim = look.ink }) {
  pen.beginPath();
  pen.arc(x, y, size, 0, 7);
  pen.fillStyle = fill;
  pen.fill();
  pen.strokeStyle = rim;
  pen.lineWidth = isReflected ? 2.4 : 1.4;
  pen.setLineDash(isReflected ? [4, 3] : []);
  pen.stroke();
  pen.setLineDash([]);
  if (!isTarget) return;
  pen.beginPath();
  pen.arc(x, y, size + 3.5, 0, 7);
  pen.lineWidth = 2;
  pen.stroke();
}

// A ring around a node that is wrong, asked for, or at work.
function ring(pen, [x, y], size, colour, width) {
  pen.beginPath();
  pen.arc(x, y, size, 0, 7);
  pen.strokeStyle = colour;
  pen.lineWidth = width;
  pen.stroke();
}

// Pictures of texts: a rim around letters takes long to draw.
const TEXTS = new Map();

// Text with a rim of the ground's colour, so that it can be read over lines, as a picture of its own.
function textPicture(text, look, size, colour) {
  const key = [text, size, colour, look.ground].join("|"), scale = window.devicePixelRatio || 1;
  if (TEXTS.has(key)) return TEXTS.get(key);
  if (TEXTS.size > 1000) TEXTS.clear();
  const canvas = document.createElement("canvas"), pen = canvas.getContext("2d"), font = `${size}px system-ui, "DejaVu Sans", sans-serif`;
  pen.font = font;
  const width = 2 * Math.ceil(pen.measureText(text).width / 2) + 8, height = 2 * Math.ceil(0.8 * size);
  Object.assign(canvas, { width: Math.ceil(width * scale), height: Math.ceil(height * scale) });
  pen.scale(scale, scale);
  Object.assign(pen, { font, textAlign: "center", textBaseline: "middle", lineJoin: "round", lineWidth: 3, strokeStyle: look.ground, fillStyle: colour });
  pen.strokeText(text, width / 2, height / 2);
  pen.fillText(text, width / 2, height / 2);
  TEXTS.set(key, { canvas, width, height });
  return TEXTS.get(key);
}

function words(pen, text, [x, y], look, size, colour = look.ink) {
  const { canvas, width, height } = textPicture(text, look, size, colour), scale = window.devicePixelRatio || 1;
  const whole = (value) => Math.round(value * scale) / scale;  // between two points of the screen it would be unsharp
  pen.drawImage(canvas, whole(x - width / 2), whole(y - height / 2), width, height);
}
