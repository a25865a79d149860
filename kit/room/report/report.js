"use strict";
// The cursor over timeline and levels: one frame, moved by keys or the pointer. Without it the page is whole.
(async () => {
  const data = JSON.parse(document.getElementById("data").textContent);
  const reading = document.getElementById("reading");
  const places = [...document.querySelectorAll(".rows")];
  const rows = [...document.querySelectorAll(".row")].map(element => {
    const [start, end, scale] = element.dataset.frames.split(" ").map(Number);
    const line = document.createElement("div");
    line.className = "cursor";
    line.hidden = true;
    element.append(line);
    return { element, start, end, scale, line };
  });
  if (!rows.length) return;
  // A browser that can't unpack tells no levels; the curves are there all the same.
  const columns = await unpack(data.levels).catch(() => null);
  let frame = 0;

  // Three columns of whole numbers, whose bytes lie by their weights.
  async function unpack(packed) {
    if (!packed || typeof DecompressionStream === "undefined") return null;
    const bytes = Uint8Array.from(atob(packed), letter => letter.charCodeAt(0));
    const stream = new Blob([bytes]).stream().pipeThrough(new DecompressionStream("deflate"));
    const flat = new Uint8Array(await new Response(stream).arrayBuffer());
    const n = data.count;
    return [0, 1, 2].map(column => at => {
      let value = 0;
      for (let k = 3; k >= 0; k--) value = value * 256 + flat[(column * 4 + k) * n + at];
      return value;
    });
  }

  function label(number) {
    const rate = data.rate;
    if (data.drop) {
      const tens = Math.floor(number / 17982), rest = number % 17982;
      number += 18 * tens + (rest < 1800 ? 0 : 2 * (1 + Math.floor((rest - 1800) / 1798)));
    }
    const two = value => String(value).padStart(2, "0");
    const seconds = Math.floor(number / rate);
    return [Math.floor(seconds / 3600), Math.floor(seconds / 60) % 60, seconds % 60].map(two).join(":") + (data.drop ? ";" : ":") + two(number % rate);
  }

  // The event of a frame, as [start, end, line, reel].
  function eventAt(at) {
    return data.events.find(event => event[0] <= at && at < event[1]);
  }

  function levels(at) {
    if (!columns || !columns[0](at)) return data.levels ? ", no level: it isn't done" : "";
    const share = value => (100 * value / data.pixels).toFixed(2) + "%";
    return `, mean ${((columns[0](at) - 1) / 10).toFixed(1)}, clipped ${share(columns[1](at))}, crushed ${share(columns[2](at))}`;
  }

  function show(to, fromKeys) {
    frame = Math.max(0, Math.min(data.count - 1, to));
    for (const row of rows) {
      row.line.hidden = frame < row.start || frame >= row.end;
      row.line.style.left = 100 * (frame + 0.5 - row.start) / row.scale + "%";
      if (fromKeys && !row.line.hidden && row.element.parentElement === document.activeElement) row.line.scrollIntoView({ block: "nearest", inline: "nearest", behavior: "auto" });
    }
    const event = eventAt(frame);
    reading.hidden = false;
    reading.textContent = `frame ${frame}, ${label(data.first + frame)}, `;
    if (event) {
      const link = document.createElement("a");
      link.href = `#e${event[2]}`;
      link.textContent = `line ${event[2]}`;
      reading.append(link, ` ${data.reels[event[3]]}, its frame ${frame - event[0] + 1} of ${event[1] - event[0]}`);
    } else reading.append("black");
    reading.append(levels(frame));
  }

  // The next place to which an event begins or ends.
  function edge(way) {
    const edges = data.events.flatMap(event => [event[0], event[1]]).filter(at => way > 0 ? at > frame : at < frame);
    return edges.length ? (way > 0 ? Math.min(...edges) : Math.max(...edges)) : frame;
  }

  const steps = {
    ArrowRight: () => frame + 1, ArrowLeft: () => frame - 1, PageDown: () => frame + data.rate, PageUp: () => frame - data.rate,
    ArrowDown: () => edge(1), ArrowUp: () => edge(-1), Home: () => 0, End: () => data.count - 1,
  };
  for (const place of places) {
    place.addEventListener("keydown", event => {
      if (!steps[event.key] || event.ctrlKey || event.altKey || event.metaKey) return;
      event.preventDefault();
      show(steps[event.key](), true);
    });
    place.addEventListener("focus", () => show(frame, false));
  }
  for (const row of rows) {
    const move = event => {
      const box = row.element.getBoundingClientRect();
      const at = row.start + Math.floor((event.clientX - box.left) / box.width * row.scale);
      if (at >= row.start && at < row.end) show(at, false);
    };
    row.element.addEventListener("click", move);
    row.element.addEventListener("pointermove", event => { if (event.pointerType === "mouse") move(event); });
  }
  // What only a script can do is promised by it alone.
  for (const hint of document.querySelectorAll(".hint")) hint.hidden = false;
  for (const place of places) place.setAttribute("aria-label", `${place.getAttribute("aria-label")}: ${document.querySelector(".hint").textContent}`);
  document.documentElement.dataset.cursor = "ready";
})();
