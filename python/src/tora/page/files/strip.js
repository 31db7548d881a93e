// The chart above the slider: the share of routes that work, and where breaks, erasures, needs and loops are.

const LANES = [["breaks", "wrong"], ["erasures", "clear"], ["needs", "query"], ["loops", "wrong"]];

class Strip {
  constructor(canvas, film) {
    Object.assign(this, { canvas, film, kept: document.createElement("canvas") });
  }

  // Draws the chart of a destination anew, and keeps it.
  lay(summary, look) {
    const { pen, width, height } = fitted(this.canvas);
    Object.assign(this, { summary, left: 5.4 * look.rem, right: width - 0.9 * look.rem, height });
    this.lane = 0.92 * look.rem;
    this.floor = height - LANES.length * this.lane - 4;
    this.axis(pen, look);
    this.shares(pen, look);
    LANES.forEach(([name, colour], at) => this.marks(pen, look, name, look[colour], this.floor + 4 + (at + 0.5) * this.lane));
    Object.assign(this.kept, { width: this.canvas.width, height: this.canvas.height });
    this.kept.getContext("2d").drawImage(this.canvas, 0, 0);
    this.drawnAt = null;
  }

  xOf(time) {
    return this.left + (time / this.film.last) * (this.right - this.left);
  }

  axis(pen, look) {
    pen.font = `${0.72 * look.rem}px system-ui, "DejaVu Sans", sans-serif`;
    pen.textAlign = "right";
    pen.textBaseline = "middle";
    pen.fillStyle = look.faint;
    pen.fillText("100 %", this.left - 6, 0.6 * look.rem);
    pen.fillText("works", this.left - 6, this.floor / 2);
    pen.fillText("0 %", this.left - 6, this.floor - 0.4 * look.rem);
    line(pen, [this.left, this.floor], [this.right, this.floor], look.edge, 1);
    line(pen, [this.left, 4], [this.right, 4], look.edge, 1);
  }

  // The area of the routes that work, and the line of those that have a path.
  shares(pen, look) {
    const { works, paths } = this.summary, { last } = this.film, columns = Math.max(Math.floor(this.right - this.left), 1);
    const yOf = (share) => this.floor - share * (this.floor - 4);
    const each = (sums) => {
      for (let column = 0; column < columns; column++) {
        const from = Math.min(Math.floor((column * last) / columns), last - 1);
        const to = Math.max(Math.floor(((column + 1) * last) / columns), from + 1);
        pen.lineTo(this.left + column, yOf(this.summary.mean(sums, from, to)));
        pen.lineTo(this.left + column + 1, yOf(this.summary.mean(sums, from, to)));
      }
    };
    if (last < 1) return;
    pen.beginPath();
    pen.moveTo(this.left, this.floor);
    each(works);
    pen.lineTo(this.left + columns, this.floor);
    pen.fillStyle = look.works;
    pen.fill();
    pen.beginPath();
    each(paths);
    pen.strokeStyle = look.path;
    pen.lineWidth = 1.2;
    pen.stroke();
  }

  marks(pen, look, name, colour, y) {
    const size = 0.3 * this.lane;
    pen.font = `${0.72 * look.rem}px system-ui, "DejaVu Sans", sans-serif`;
    pen.textAlign = "right";
    pen.textBaseline = "middle";
    pen.fillStyle = look.faint;
    pen.fillText(name, this.left - 6, y);
    pen.fillStyle = colour;
    let drawn = -9;
    for (const round of this.summary[name]) {
      const x = this.xOf(round), least = name === "loops" ? 0.5 : name === "needs" ? 2 : 1;
      if (x - drawn < least) continue;
      drawn = x;
      pen.beginPath();
      if (name === "needs") pen.rect(x - 0.5, y - size, 1, 2 * size);
      else if (name === "loops") pen.rect(Math.floor(this.xOf(round - 1)), y - size, Math.ceil(x) - Math.floor(this.xOf(round - 1)), 2 * size);
      else if (name === "breaks") [[-size, -size], [size, -size], [0, size]].forEach(([a, b]) => pen.lineTo(x + a, y + b));
      else [[-size, 0], [0, -size], [size, 0], [0, size]].forEach(([a, b]) => pen.lineTo(x + a, y + b));
      pen.fill();
    }
  }

  // Draws the kept chart and the place of a time, where that is another than before.
  draw(time, look) {
    const at = Math.round(2 * this.xOf(time));
    if (at === this.drawnAt) return;
    this.drawnAt = at;
    const { pen, height } = fitted(this.canvas);
    pen.save();
    pen.setTransform(1, 0, 0, 1, 0, 0);
    pen.drawImage(this.kept, 0, 0);
    pen.restore();
    line(pen, [this.xOf(time), 0], [this.xOf(time), height], look.asked, 2);
  }

  // The round at a point of the chart: in a lane that of the nearest mark, where one is near.
  roundAt(x, y) {
    const part = (x - this.left) / (this.right - this.left);
    const round = Math.max(0, Math.min(this.film.last, Math.ceil(part * this.film.last)));
    const lane = LANES[Math.floor((y - this.floor - 4) / this.lane)];
    if (!lane) return round;
    let best = round, far = 7;
    for (const mark of this.summary[lane[0]]) {
      if (Math.abs(this.xOf(mark) - x) < far) [best, far] = [mark, Math.abs(this.xOf(mark) - x)];
    }
    return best;
  }
}
