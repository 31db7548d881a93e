// Time: where the page is in the run, and how it goes on. A time is a number of rounds; within a round its records happen
// one after the other.
class Time {
  constructor(film, changed) {
    Object.assign(this, { film, changed, now: 0, isPlaying: false, speed: 10, record: -1 });
  }

  // Goes to a time.
  go(time) {
    this.now = Math.max(0, Math.min(this.film.last, time));
    this.record = -1;
    this.changed();
  }

  get count() {
    return this.film.countAt(this.now);
  }

  get round() {
    return Math.min(Math.ceil(this.now - 1e-9), this.film.last);
  }

  // To the end of the next round, or of the one before.
  rounds(by) {
    this.pause();
    this.go(by > 0 ? Math.floor(this.now + 1e-9) + by : Math.ceil(this.now - 1e-9) + by);
  }

  // To the next record that is no count of datagrams, or back before the last.
  event(by) {
    this.pause();
    const { kind, count } = this.film.records;
    let at = this.count - 1 + by;
    while (at >= 0 && at < count && kind[at] === FRAMES) at += by;
    if (at >= count) return;
    this.go(this.film.timeOf(at + 1));
    this.record = at;
    this.changed();
  }

  // To a record.
  at(record) {
    this.pause();
    this.go(this.film.timeOf(record + 1));
    this.record = record;
    this.changed();
  }

  play() {
    if (this.now >= this.film.last) this.now = 0;
    this.isPlaying = true;
    this.before = performance.now();
    this.frames = 0;
    requestAnimationFrame((at) => this.frame(at));
    this.changed();
  }

  pause() {
    if (!this.isPlaying) return;
    this.isPlaying = false;
    this.changed();
  }

  frame(at) {
    if (!this.isPlaying) return;
    const seconds = Math.max(0, Math.min(at - this.before, 250)) / 1000;
    this.before = at;
    this.frames++;
    this.record = -1;
    this.now = Math.min(this.film.last, this.now + seconds * this.speed);
    if (this.now >= this.film.last) this.isPlaying = false;
    this.changed();
    if (this.isPlaying) requestAnimationFrame((next) => this.frame(next));
  }
}
