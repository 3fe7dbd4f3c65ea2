"use strict";
// ---- Numbers and words of a plan. They are drawn last, so that no mark covers one, and none stands on another or on a
// sign that has its place.

class Labels {
  constructor(wide, high) { Object.assign(this, { wide, high, taken: [], asked: [], drawn: [] }); }
  width(context, word, size, weight = 600) {
    context.font = `${weight} ${size}px system-ui, Roboto, sans-serif`;
    return context.measureText(word).width;
  }
  // A place that a sign has, which is no label's.
  keep(x, y, wide, high) { this.taken.push({ x, y, wide, high }); }
  isFree(x, y, wide, high) {
    return x - wide / 2 >= 0 && x + wide / 2 <= this.wide && y - high / 2 >= 0 && y + high / 2 <= this.high &&
      this.taken.every(each => Math.abs(x - each.x) * 2 >= wide + each.wide ||
        Math.abs(y - each.y) * 2 >= high + each.high);
  }
  // Asks for a label: at `x` and `y`, which have their place already, or at the first of `places` that is free, or on
  // a line to `beside`. Those of the least rank choose first.
  put(label) { this.asked.push(label); }
  draw(context) {
    const order = this.asked.map((label, at) => ({ rank: 0, ...label, at }));
    order.sort((one, other) => one.rank - other.rank || one.at - other.at);
    for (const label of order) {
      label.high ??= label.size + 2;
      label.wide ??= this.width(context, label.word, label.size, label.weight) + 2;
      const place = label.places ? this.placeOf(label) : [label.x, label.y];
      if (!place) continue;
      [label.x, label.y] = place;
      if (label.places) this.keep(label.x, label.y, label.wide, label.high);
      this.drawn.push(label);
    }
    for (const label of this.drawn) if (label.line) this.drawLine(context, label);
    for (const label of this.drawn) this.drawOne(context, label);
  }
  placeOf(label) {
    const free = label.places.find(([x, y]) => this.isFree(x, y, label.wide, label.high));
    if (free || !label.beside) return free;
    const { from: [x0, y0], far } = label.beside;
    for (let reach = far; reach < far + 90; reach += 8)
      for (let turn = 0; turn < 16; turn++) {
        const place = [x0 + Math.cos(turn * Math.PI / 8) * reach, y0 + Math.sin(turn * Math.PI / 8) * reach];
        if (this.isFree(...place, label.wide, label.high)) {
          Object.assign(label, { line: true, halo: true, ink: label.beside.ink });
          return place;
        }
      }
    return null;
  }
  drawLine(context, { x, y, beside }) {
    context.strokeStyle = beside.ink;
    context.lineWidth = 1;
    context.beginPath();
    context.moveTo(...beside.from);
    context.lineTo(x, y);
    context.stroke();
  }
  drawOne(context, { word, x, y, size, weight = 600, wide, high, ink, halo, chip }) {
    context.font = `${weight} ${size}px system-ui, Roboto, sans-serif`;
    context.textAlign = "center";
    context.textBaseline = "middle";
    if (chip) {
      context.fillStyle = tints.card;
      context.strokeStyle = chip.edge;
      context.lineWidth = chip.thick;
      context.beginPath();
      context.roundRect(x - wide / 2, y - high / 2, wide, high, 5);
      context.fill();
      context.stroke();
    }
    if (halo) {
      context.lineWidth = 4;
      context.lineJoin = "round";
      context.strokeStyle = tints.card;
      context.strokeText(word, x, y + .5);
    }
    context.fillStyle = ink;
    context.fillText(word, x, y + .5);
  }
}
