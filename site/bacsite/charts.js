"use strict";
(() => {
  const of = (id) => document.getElementById(id), span = of("span"), told = of("told"), main = of("charts");
  const data = JSON.parse(of("data").textContent);
  const TOP = 18, COLORS = 6, MINUTE = 60e3, HOUR = 3600e3, DAY = 86400e3;
  const STEPS = [1e3, 2e3, 5e3, 10e3, 15e3, 30e3, MINUTE, 2 * MINUTE, 5 * MINUTE, 10 * MINUTE, 15 * MINUTE, 30 * MINUTE,
    HOUR, 2 * HOUR, 3 * HOUR, 6 * HOUR, 12 * HOUR, DAY, 2 * DAY, 7 * DAY, 30 * DAY];
  const make = (what, where, given, text) => {
    const made = document.createElementNS("http://www.w3.org/2000/svg", what);
    for (const name in given) made.setAttribute(name, given[name]);
    if (text !== undefined) made.textContent = text;
    return where.appendChild(made);
  };
  const add = (what, where, name, text) => {
    const made = where.appendChild(document.createElement(what));
    made.className = name;
    made.textContent = text || "";
    return made;
  };
  // A local time as 2026-11-29 08:13:42.123, from one place of it to another.
  const time = (at, from = 11, to = 19) =>
    new Date(at - new Date(at).getTimezoneOffset() * MINUTE).toISOString().replace("T", " ").slice(from, to);
  const isNumber = (text) => text.trim() !== "" && Number.isFinite(Number(text));
  const words = (point, [at, text, note, flags]) => (text ? text + (point.unit ? " " + point.unit : "") +
    (note ? ` (${note})` : "") : "no value: " + note) + (flags ? ", " + flags : "") + ", " + time(at, 0, 23);
  let charts = [], hovered = false;

  // What a line is measured by: numbers of one unit have one axis, states and texts have levels of their own.
  function axisOf(point, seen) {
    const there = seen.filter((it) => it[1]);
    const numeric = there.every((it) => isNumber(it[1])), named = there.some((it) => it[2]);
    if (numeric && !(point.step && named)) return { key: "unit " + point.unit, unit: point.unit, values: there };
    const levels = new Map(there.map((it) => [it[1], it[1] + (it[2] ? " " + it[2] : "")]));
    const order = [...levels.keys()].sort((a, b) => numeric ? a - b : 0);
    const names = order.map((it) => levels.get(it));
    return { key: "levels of " + point.name, unit: "", levels: order, names, values: there };
  }

  // The least and the greatest of an axis, and where it has marks.
  function scale(axis) {
    if (axis.levels) {
      axis.marks = axis.names.map((name, at) => [at, name]);
      return [axis.low, axis.high] = [0, Math.max(1, axis.levels.length - 1)];
    }
    let low = Infinity, high = -Infinity;
    for (const [, text] of axis.values) { low = Math.min(low, text); high = Math.max(high, text); }
    if (low > high) [low, high] = [0, 1];
    const size = high - low || Math.abs(high) / 10 || 1, power = 10 ** Math.floor(Math.log10(size / 4));
    const step = power * [1, 2, 5, 10].find((it) => power * it >= size / 4);
    axis.low = Math.floor(low / step) * step - (high === low ? step : 0);
    axis.high = Math.ceil(high / step) * step + (high === low ? step : 0);
    const digits = Math.min(99, Math.max(0, -Math.floor(Math.log10(step) + 1e-9)));
    axis.marks = [];
    for (let at = 0; at < 12 && axis.low + at * step <= axis.high + step / 2; at++) {
      const mark = axis.low + at * step;
      axis.marks.push([mark, (Math.abs(mark) < step / 2 ? 0 : mark).toFixed(digits)]);
    }
  }

  function draw() {
    const points = data.charts.flat(), times = points.flatMap((it) => it.samples.map((sample) => sample[0]));
    const last = times.reduce((a, b) => Math.max(a, b), 0), length = Number(span.value) * 1000;
    const first = length ? last - length : times.reduce((a, b) => Math.min(a, b), last);
    main.replaceChildren();
    charts = data.charts.map((group) => chart(group, first, last));
    show(last);
  }

  function chart(group, first, last) {
    const section = add("section", main, "");
    const lines = group.map((point, at) => {
      const head = add("h2", section, "c" + at % COLORS, point.name + " "), seen = samplesOf(point, first);
      if (point.label) add("span", head, "label", point.label + " ");
      return { point, seen, color: "c" + at % COLORS, axis: axisOf(point, seen), value: add("span", head, "") };
    });
    const axes = [];
    for (const line of lines) {
      const same = axes.find((it) => it.key === line.axis.key);
      if (same) same.values = same.values.concat(line.axis.values);
      else axes.push(Object.assign(line.axis, { color: line.color }));
      line.axis = same || line.axis;
      if (same) same.color = "";
    }
    axes.forEach(scale);
    const flags = lines.flatMap((line) => flagsOf(line));
    const wide = (axis) => 12 + 7 * Math.min(18, axis.marks.reduce((a, it) => Math.max(a, it[1].length), 0));
    const width = Math.max(320, main.clientWidth || 1000), height = group.length > 1 ? 220 : 130;
    const left = Math.max(wide(axes[0]), flags.length ? 92 : 40), bottom = TOP + height;
    const right = width - 12 - axes.slice(1).reduce((a, it) => a + wide(it), 0);
    const total = bottom + 18 + 13 * flags.length;
    const svg = make("svg", section, { viewBox: `0 0 ${width} ${total}`, role: "img",
      "aria-label": group.map((it) => it.name).join(" and ") });
    const x = (at) => left + (right - left) * (at - first) / Math.max(last - first, 1);
    make("rect", svg, { class: "frame", x: left, y: TOP, width: right - left, height });
    timesOf(svg, first, last, x, bottom, right - left);
    let edge = right;
    axes.forEach((axis, at) => {
      axis.y = (value) => bottom - 5 - (height - 10) * (value - axis.low) / (axis.high - axis.low);
      const place = at ? { x: edge + 5, "text-anchor": "start" } : { x: left - 5, "text-anchor": "end" };
      const color = axes.length > 1 && axis.color ? "axis " + axis.color : "";
      for (const [value, text] of axis.marks) {
        make("text", svg, { ...place, class: "mark " + color, y: axis.y(value) + 4 }, text.slice(0, 18));
        const level = axis.y(value);
        if (!at && !axis.levels) make("line", svg, { class: "grid", x1: left, x2: right, y1: level, y2: level });
      }
      const title = at ? { x: edge, "text-anchor": "end" } : { x: left, "text-anchor": "start" };
      make("text", svg, { ...title, class: "unit " + color, y: TOP - 6 }, axis.unit);
      if (at) edge += wide(axis);
    });
    const clip = `clip${main.children.length}`, inner = make("g", svg, { "clip-path": `url(#${clip})` });
    make("rect", make("clipPath", svg, { id: clip }), { x: left, y: TOP, width: right - left, height });
    gapsOf(inner, lines, x, height);
    for (const line of lines) make("path", inner, { class: line.color, d: pathOf(line, x) });
    flags.forEach((flag, at) => flagLine(svg, flag, x, bottom + 20 + 13 * at, left));
    const here = make("line", svg, { class: "here", y1: TOP, y2: bottom, x1: -9, x2: -9 });
    svg.addEventListener("pointermove", (event) => {
      const box = svg.getBoundingClientRect(), at = (event.clientX - box.left) * width / box.width;
      hovered = true;
      show(first + (last - first) * (at - left) / (right - left));
    });
    svg.addEventListener("pointerleave", () => { hovered = false; show(last); });
    return { lines, here, x };
  }

  // The samples from then on; the one before them says what a point had at first.
  function samplesOf(point, first) {
    const after = point.samples.findIndex((it) => it[0] >= first);
    return point.samples.slice(Math.max(0, after < 0 ? point.samples.length : after - 1));
  }

  function pathOf({ point, seen, axis }, x) {
    let line = "", before = null;
    const level = (it) => axis.y(axis.levels ? axis.levels.indexOf(it[1]) : Number(it[1]));
    for (const it of seen) {
      if (it[1] && !before) line += `M${x(it[0])} ${level(it)}h.01`;
      else if (it[1]) line += point.step || axis.levels ? `H${x(it[0])}V${level(it)}` : `L${x(it[0])} ${level(it)}`;
      before = it[1] ? it : null;
    }
    return line;
  }

  // Grey where a value is missing, with the reason, and whose it is if others have one.
  function gapsOf(svg, lines, x, height) {
    const gaps = new Map();
    for (const { point, seen } of lines) {
      seen.forEach((it, at) => {
        if (it[1] || (at && !seen[at - 1][1] && seen[at - 1][2] === it[2])) return;
        const next = seen.slice(at).find((other) => other[1] || other[2] !== it[2]);
        const from = at && seen[at - 1][1] ? seen[at - 1][0] : it[0], to = (next || seen[seen.length - 1])[0];
        const key = [from, to, it[2]].join();
        gaps.set(key, { from, to, note: it[2], names: [...(gaps.get(key) || { names: [] }).names, point.name] });
      });
    }
    for (const { from, to, note, names } of gaps.values()) {
      const size = Math.max(x(to) - x(from), 1), middle = { x: x(from) + size / 2, "text-anchor": "middle" };
      const text = names.length < lines.length ? `${names.join(", ")}: ${note}` : note;
      const box = make("rect", svg, { class: "gap", x: x(from), y: TOP, width: size, height });
      make("title", box, {}, text);
      if (size > 6.3 * text.length) make("text", svg, { class: "why", ...middle, y: TOP + 14 }, text);
    }
  }

  // When each flag of a line is set: from a sample that has it to the next one that does not.
  function flagsOf({ point, seen, color }) {
    const found = new Map();
    seen.forEach((it, at) => {
      for (const flag of it[1] && it[3] ? it[3].split(", ") : []) {
        const spans = found.get(flag) || found.set(flag, []).get(flag), last = spans[spans.length - 1];
        const to = (seen[at + 1] || it)[0];
        if (last && last[1] === it[0]) last[1] = to;
        else spans.push([it[0], to]);
      }
    });
    return [...found].map(([flag, spans]) => ({ flag, spans, color, name: point.name }));
  }

  function flagLine(svg, { flag, spans, color, name }, x, y, left) {
    make("text", svg, { class: "flags axis " + color, x: left - 5, y: y + 9, "text-anchor": "end" }, flag.slice(0, 14));
    for (const [from, to] of spans) {
      const start = Math.max(left, x(from)), width = Math.max(x(to) - start, 2);
      const box = make("rect", svg, { class: "flag " + color, x: start, y, width, height: 9 });
      make("title", box, {}, `${name}: ${flag}, from ${time(from)} to ${time(to)}`);
    }
  }

  // Marks at whole seconds, minutes, hours or days of local time.
  function timesOf(svg, first, last, x, bottom, width) {
    const most = Math.max(2, Math.floor(width / 90));
    const step = STEPS.find((it) => (last - first) / it <= most) || 365 * DAY;
    const shift = new Date(first).getTimezoneOffset() * MINUTE;
    const places = step < MINUTE ? [11, 19] : step < DAY ? [11, 16] : [0, 10];
    for (let at = Math.ceil((first - shift) / step) * step + shift; at <= last && last > first; at += step) {
      make("line", svg, { class: "grid", x1: x(at), x2: x(at), y1: TOP, y2: bottom });
      make("text", svg, { class: "time", x: x(at), y: bottom + 14, "text-anchor": "middle" }, time(at, ...places));
    }
  }

  function show(at) {  // of each point the latest sample up to then
    for (const { lines, here, x } of charts) {
      let place = -9;
      for (const { point, seen, value } of lines) {
        const near = seen.filter((it) => it[0] <= at).pop() || seen[0];
        value.textContent = near ? words(point, near) : "nothing yet";
        value.className = near && !near[1] ? "old" : "";
        if (near && hovered) place = Math.max(place, x(near[0]));
      }
      for (const end of ["x1", "x2"]) here.setAttribute(end, place);
    }
  }

  const wait = Math.max(data.every, 5000);
  function tell() {
    const isOld = !data.over && Date.now() - data.made > 3 * wait + 5000;
    told.textContent = (data.over ? "Ended at " : "As of ") + time(data.made, 0, 23) + ", local time" +
      (isOld ? ": nothing has come since" : "");
    told.className = isOld ? "old" : "";
  }

  span.value = location.hash.slice(1);
  if (!span.value) span.value = "0";
  span.addEventListener("change", () => { location.hash = span.value; draw(); });
  window.addEventListener("resize", () => draw());
  draw(), tell();
  setInterval(() => { tell(); if (!data.over && !hovered) location.reload(); }, wait);
})();
