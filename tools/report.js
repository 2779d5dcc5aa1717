"use strict";
(() => {
  const data = JSON.parse(document.getElementById("data").textContent);
  const count = data.above.length;
  const narrow = () => window.innerWidth < 760;
  const colours = ["#8fb1d3", "#ecc08a", "#9fc7a7", "#caaacb", "#e3aaa4", "#9fcdcf", "#d8cc8e", "#bfae9f", "#aab2e6"];

  // ---- the tree: what stands below each node, and what was cut of it

  const below = Array.from({ length: count }, () => []);
  for (let node = 1; node < count; node++) below[data.above[node]].push(node);
  const cut = new Map();
  for (const [node, ...row] of data.cut) cut.set(node, [...(cut.get(node) || []), row]);
  const depth = new Int32Array(count);
  for (let node = 1; node < count; node++) depth[node] = depth[data.above[node]] + 1;
  const total = data.retained[0] || 1;

  const comma = (value) => value.toLocaleString("en-US");
  const percent = (value) => {
    const share = (100 * value) / total;
    return share >= 0.05 || !value ? `${share.toFixed(1)} %` : "< 0.1 %";
  };
  const size = (value) => {
    for (const [unit, width] of [["MiB", 1 << 20], ["KiB", 1 << 10]]) {
      if (value >= width) return `${(value / width).toFixed(1)} ${unit}`;
    }
    return `${value} bytes`;
  };
  const name = (node) => data.names[data.name[node]];
  const way = (node) => data.ways[data.way[node]];
  const short = (text) => {
    const head = text.split(/[<[]/)[0];
    return text.slice(head.lastIndexOf(".") + 1) || text;
  };

  function make(tag, attributes, ...inside) {
    const made = document.createElement(tag);
    for (const [key, value] of Object.entries(attributes || {})) {
      if (value !== null && value !== undefined) made.setAttribute(key, value);
    }
    made.append(...inside);
    return made;
  }

  // A name that may break between its parts, where there is little room.
  function code(text) {
    const made = make("bdi", { class: "code" });
    text.split(/(?<=[.,;+$_])(?=\w)/).forEach((part, at) => made.append(...(at ? [make("wbr"), part] : [part])));
    return made;
  }

  // ---- the tree as a table

  const body = document.querySelector("#dominators tbody");
  const rows = new Map();
  const indent = (level) => `${Math.min(level, narrow() ? 9 : 24) * (narrow() ? 8 : 14)}px`;

  function cells(row, label, retained, own, objects) {
    const share = make("td", { class: "num share" }, percent(retained), make("i", {}));
    share.lastChild.style.width = `${Math.max(0, Math.min(60, (60 * retained) / total))}px`;
    row.append(
      make("td", { class: "text" }, label), share, make("td", { class: "num" }, comma(retained)),
      make("td", { class: "num own" }, own === null ? "" : comma(own)),
      make("td", { class: "num own" }, comma(objects)),
    );
    return row;
  }

  function rowOf(node, at, of) {
    const opens = below[node].length + (cut.get(node) || []).length > 0;
    const level = depth[node];
    const label = make("div", { class: "row" });
    label.style.paddingLeft = indent(level - 1);
    const mark = make("span", { class: "mark", "aria-hidden": "true" }, opens ? "▸" : "");
    const text = make("span", {});
    if (level > 24) text.append(make("span", { class: "dim" }, `${level}: `));
    if (way(node)) text.append(make("span", { class: "way" }, `${way(node)} `));
    text.append(code(name(node)));
    if (data.texts[node]) text.append(" ", make("q", {}, data.texts[node]));
    text.append(" ", make("span", { class: "dim code" }, data.address[node]));
    label.append(mark, text);
    const row = make("tr", {
      tabindex: -1, "aria-level": level, "aria-posinset": at + 1, "aria-setsize": of,
      "aria-expanded": opens ? "false" : null,
    });
    row.node = node;
    rows.set(node, row);
    return cells(row, label, data.retained[node], data.own[node], data.objects[node]);
  }

  function cutRow(node, [of, many, objects, retained]) {
    const label = make("div", { class: "row" }, make("span", { class: "mark" }));
    label.style.paddingLeft = indent(depth[node]);
    label.append(make("span", {}, `${comma(many)} × `, code(data.names[of])));
    const row = make("tr", { class: "cut", tabindex: -1, "aria-level": depth[node] + 1 });
    row.node = -1;
    return cells(row, label, retained, null, objects);
  }

  const most = 200;
  function rowsBelow(node, from) {
    const made = [], all = below[node];
    all.slice(from, from + most).forEach((one, at) => made.push(rowOf(one, from + at, all.length)));
    if (all.length > from + most) {
      const row = make("tr", { class: "cut more", tabindex: -1, "aria-level": depth[node] + 1 });
      const more = Math.min(most, all.length - from - most);
      const button = make("button", { type: "button" }, `Show ${comma(more)} more of ${comma(all.length)}`);
      const act = () => {
        const next = rowsBelow(node, from + most);
        row.replaceWith(...next);
        focusRow(next[0]);
      };
      button.addEventListener("click", (event) => { event.stopPropagation(); act(); });
      row.act = act;
      row.node = -1;
      row.append(make("td", { colspan: 5 }, button));
      made.push(row);
    } else {
      for (const one of cut.get(node) || []) made.push(cutRow(node, one));
    }
    return made;
  }

  function level(row) { return Number(row.getAttribute("aria-level")); }

  function expand(row, chain) {
    if (row.getAttribute("aria-expanded") !== "false") return;
    row.setAttribute("aria-expanded", "true");
    row.querySelector(".mark").textContent = "▾";
    const made = rowsBelow(row.node, 0);
    row.after(...made);
    const only = below[row.node][0];
    // Where one holds nearly all, it is opened, too: nobody wants to click through a chain.
    const goesOn = only !== undefined && data.retained[only] >= 0.8 * data.retained[row.node];
    if (chain > 0 && goesOn) expand(rows.get(only), chain - 1);
  }

  function collapse(row) {
    if (row.getAttribute("aria-expanded") !== "true") return;
    row.setAttribute("aria-expanded", "false");
    row.querySelector(".mark").textContent = "▸";
    while (row.nextElementSibling && level(row.nextElementSibling) > level(row)) {
      rows.delete(row.nextElementSibling.node);
      row.nextElementSibling.remove();
    }
  }

  function focusRow(row) {
    if (!row) return;
    for (const one of body.querySelectorAll('tr[tabindex="0"]')) one.tabIndex = -1;
    row.tabIndex = 0;
    row.focus({ preventScroll: false });
  }

  function reveal(node) {
    const path = [];
    for (let one = node; one > 0; one = data.above[one]) path.unshift(one);
    for (const one of path) {
      let row = rows.get(one);
      while (!row) {
        const more = [...body.querySelectorAll("tr.more")].find((found) => level(found) === depth[one]);
        if (!more) return;
        more.act();
        row = rows.get(one);
      }
      if (one !== node) expand(row, 0);
    }
    for (const row of body.querySelectorAll("tr.found")) row.classList.remove("found");
    const row = rows.get(node);
    row.classList.add("found");
    expand(row, 0);
    row.scrollIntoView({ block: "center" });
    focusRow(row);
  }

  body.addEventListener("click", (event) => {
    const row = event.target.closest("tr");
    if (!row || String(window.getSelection())) return;
    if (row.getAttribute("aria-expanded") === "false") expand(row, 20); else collapse(row);
    focusRow(row);
  });
  body.addEventListener("keydown", (event) => {
    const row = event.target.closest("tr");
    if (!row) return;
    const all = [...body.children], at = all.indexOf(row);
    const open = row.getAttribute("aria-expanded");
    const acts = {
      ArrowDown: () => focusRow(all[at + 1]),
      ArrowUp: () => focusRow(all[at - 1]),
      Home: () => focusRow(all[0]),
      End: () => focusRow(all[all.length - 1]),
      ArrowRight: () => (open === "false" ? expand(row, 0) : open === "true" && focusRow(all[at + 1])),
      ArrowLeft: () => {
        if (open === "true") collapse(row);
        else focusRow(all.slice(0, at).reverse().find((one) => level(one) < level(row)));
      },
      Enter: () => (row.act ? row.act() : open === "false" ? expand(row, 20) : collapse(row)),
    };
    if (acts[event.key]) {
      acts[event.key]();
      event.preventDefault();
    }
  });

  body.append(...rowsBelow(0, 0));
  if (body.firstElementChild) {
    body.firstElementChild.tabIndex = 0;
    if (below[0].length) expand(body.firstElementChild, 0);
  }

  // ---- the tree as an icicle

  const icicle = document.getElementById("icicle"), up = document.getElementById("up");
  const crumbs = document.getElementById("crumbs");
  const height = 23, levels = 16;
  let top = 0;

  function colour(of) {
    let sum = 0;
    for (const letter of of) sum = (sum * 31 + letter.charCodeAt(0)) >>> 0;
    return colours[sum % colours.length];
  }

  const sums = (retained, objects) => `${size(retained)}, ${percent(retained)}, ${comma(objects)} objects`;

  function block(left, width, row, text, hint, fill, act) {
    const shown = width > 26 ? text : "";
    const made = make("button", { type: "button", title: hint, "aria-label": hint, tabindex: -1 }, shown);
    made.style.left = `${left}px`;
    made.style.top = `${row * height}px`;
    made.style.width = `${Math.max(width - 1, 1)}px`;
    if (fill) made.style.background = fill; else made.className = "cut";
    made.at = [row, left];
    if (act) made.addEventListener("click", act);
    icicle.append(made);
  }

  function draw() {
    icicle.replaceChildren();
    const width = icicle.clientWidth || 900;
    const scale = width / (data.retained[top] || 1);
    let waiting = [[top, 0]], row = 0;
    while (waiting.length && row < levels) {
      const next = [];
      for (const [node, left] of waiting) {
        const wide = data.retained[node] * scale;
        const text = (way(node) && !way(node).startsWith("[") ? `${way(node)}: ` : "") + short(name(node));
        const kept = sums(data.retained[node], data.objects[node]);
        const hint = `${name(node)}${way(node) ? ` (${way(node)})` : ""}: ${kept}`;
        block(left, wide, row, text, hint, node ? colour(name(node)) : "#c9cdd1", () => zoom(node));
        let at = left;
        for (const one of below[node]) {
          const here = data.retained[one] * scale;
          if (here >= 2.5) next.push([one, at]);
          at += here;
        }
        for (const [of, many, objects, retained] of cut.get(node) || []) {
          const here = retained * scale;
          if (here >= 4 && row + 1 < levels) {
            const what = `${comma(many)} × ${data.names[of]}: ${sums(retained, objects)}`;
            block(at, here, row + 1, `${comma(many)} × ${short(data.names[of])}`, what, "", null);
          }
          at += here;
        }
      }
      waiting = next;
      row += 1;
    }
    const last = Math.max(0, ...[...icicle.children].map((one) => one.at[0]));
    icicle.style.height = `${(last + 1) * height}px`;
    if (icicle.firstElementChild) icicle.firstElementChild.tabIndex = 0;
    up.disabled = top === 0;
    const path = [];
    for (let one = top; one > 0; one = data.above[one]) path.unshift(short(name(one)));
    const shown = path.length > 6 ? ["…", ...path.slice(-5)] : path;
    crumbs.textContent = ["all roots", ...shown].join(" › ");
  }

  function zoom(node) {
    top = node === top && node > 0 ? data.above[node] : node;
    draw();
    const active = document.activeElement;
    if (icicle.contains(active) || active === document.body) icicle.firstElementChild.focus();
  }

  icicle.addEventListener("keydown", (event) => {
    const from = event.target.closest("button");
    const step = { ArrowLeft: [0, -1], ArrowRight: [0, 1], ArrowUp: [-1, 0], ArrowDown: [1, 0] }[event.key];
    if (event.key === "Escape" && top) zoom(top);
    if (!from || !step) return;
    event.preventDefault();
    const [row, left] = from.at;
    const there = [...icicle.children].filter((one) => one.at[0] === row + step[0] && one !== from);
    const side = there.filter((one) => step[1] === 0 || Math.sign(one.at[1] - left) === step[1]);
    side.sort((one, other) => Math.abs(one.at[1] - left) - Math.abs(other.at[1] - left));
    if (side[0]) {
      from.tabIndex = -1;
      side[0].tabIndex = 0;
      side[0].focus();
    }
  });
  up.addEventListener("click", () => { top = top ? data.above[top] : 0; draw(); });
  let waits = 0;
  window.addEventListener("resize", () => { clearTimeout(waits); waits = setTimeout(draw, 120); });
  draw();

  for (const button of document.querySelectorAll("button.reveal")) {
    button.addEventListener("click", () => reveal(Number(button.dataset.node)));
  }

  // ---- tables that can be sorted and filtered

  function value(row, column) {
    const cell = row.cells[column];
    return cell.dataset.v !== undefined ? Number(cell.dataset.v) : cell.textContent.toLowerCase();
  }

  const compare = (one, other) => (one < other ? -1 : one > other ? 1 : 0);

  function sortBy(table, column, direction) {
    const heads = [...table.tHead.rows[0].cells], part = table.tBodies[0];
    heads.forEach((head, at) => head.setAttribute("aria-sort", at === column ? direction : "none"));
    const sign = direction === "ascending" ? 1 : -1;
    const sorted = [...part.rows].map((row) => [value(row, column), row]);
    sorted.sort(([one], [other]) => sign * compare(one, other));
    part.append(...sorted.map(([, row]) => row));
  }

  for (const table of document.querySelectorAll("table.sortable")) {
    [...table.tHead.rows[0].cells].forEach((head, column) => {
      const button = make("button", { type: "button" }, ...head.childNodes);
      head.replaceChildren(button);
      head.setAttribute("aria-sort", "none");
      button.addEventListener("click", () => {
        const first = head.classList.contains("num") ? "descending" : "ascending";
        const other = first === "ascending" ? "descending" : "ascending";
        sortBy(table, column, head.getAttribute("aria-sort") === first ? other : first);
      });
    });
    if (!table.dataset.filter) continue;
    const says = `Filter ${table.dataset.filter} by a part of the name`;
    const input = make("input", { type: "search", placeholder: "Part of a name", "aria-label": says });
    const shown = make("span", { class: "dim", "aria-live": "polite" });
    const filter = () => {
      const wanted = input.value.trim().toLowerCase();
      let left = 0;
      for (const row of table.tBodies[0].rows) {
        row.hidden = !row.cells[0].textContent.toLowerCase().includes(wanted);
        left += row.hidden ? 0 : 1;
      }
      shown.textContent = `${comma(left)} of ${comma(table.tBodies[0].rows.length)} ${table.dataset.filter}`;
    };
    input.addEventListener("input", filter);
    table.parentElement.before(make("div", { class: "filter" }, input, shown));
    filter();
  }

  // ---- #selftest: what a reader does, done by the page itself

  // How bright a colour is, and how much the letters of an element differ from what is behind them: 4.5 reads well.
  function luminance(parts) {
    const [red, green, blue] = parts.map((part) => {
      const share = part / 255;
      return share <= 0.04045 ? share / 12.92 : ((share + 0.055) / 1.055) ** 2.4;
    });
    return 0.2126 * red + 0.7152 * green + 0.0722 * blue;
  }

  const parts = (colour) => (colour.match(/[\d.]+/g) || []).map(Number);

  function contrast(element) {
    let behind = element;
    const paperOf = (one) => parts(getComputedStyle(one).backgroundColor);
    while (behind.parentElement && paperOf(behind)[3] === 0) behind = behind.parentElement;
    const paper = paperOf(behind);
    const pair = [parts(getComputedStyle(element).color), paper].map((one) => luminance(one.slice(0, 3)));
    return (Math.max(...pair) + 0.05) / (Math.min(...pair) + 0.05);
  }

  function selftest() {
    let done = 0;
    const is = (condition, words) => {
      if (!condition) throw new Error(words);
      done += 1;
    };
    const key = (target, which) => target.dispatchEvent(new KeyboardEvent("keydown", { key: which, bubbles: true }));
    is(document.querySelectorAll("main > section").length >= 6, "sections");
    is(!document.querySelector("main script, main img, main iframe, main object"), "no markup of others");
    const links = [...document.querySelectorAll("nav a")];
    is(links.every((link) => document.querySelector(link.getAttribute("href"))), "links lead somewhere");
    const ids = [...document.querySelectorAll("[id]")].map((one) => one.id);
    is(new Set(ids).size === ids.length, "each id once");
    const tables = [...document.querySelectorAll("table")];
    is(tables.every((one) => one.caption || one.getAttribute("aria-label")), "tables have names");
    is([...document.querySelectorAll("th")].every((one) => one.scope === "col"), "heads of columns");
    const held = new Float64Array(count);
    for (let node = 1; node < count; node++) held[data.above[node]] += data.retained[node];
    for (const [node, rest] of cut) for (const row of rest) held[node] += row[3];
    is(held.every((sum, node) => sum + data.own[node] === data.retained[node]), "sums of the tree");
    if (body.firstElementChild) {
      const first = body.firstElementChild;
      collapse(first);
      focusRow(first);
      const before = body.children.length;
      if (first.hasAttribute("aria-expanded")) {
        key(first, "ArrowRight");
        is(body.children.length > before && first.getAttribute("aria-expanded") === "true", "ArrowRight opens");
        key(first, "ArrowRight");
        is(document.activeElement === first.nextElementSibling, "ArrowRight goes down");
        key(document.activeElement, "ArrowLeft");
        if (document.activeElement !== first) key(document.activeElement, "ArrowLeft");
        is(document.activeElement === first, "ArrowLeft goes up");
        key(first, "ArrowLeft");
        is(body.children.length === before, "ArrowLeft closes");
        first.firstElementChild.click();
        is(body.children.length > before, "a click opens");
        key(first, "End");
        is(document.activeElement === body.lastElementChild, "End");
      }
      let deep = 0;
      for (let node = 1; node < count; node++) if (depth[node] > depth[deep]) deep = node;
      reveal(deep);
      is(document.activeElement === rows.get(deep), "the deepest node is shown");
      zoom(deep);
      is(icicle.children.length > 0 && !up.disabled, "the icicle looks into a node");
      while (!up.disabled) up.click();
      is(top === 0, "and comes back");
    }
    for (const button of document.querySelectorAll("button.reveal")) {
      button.click();
      is(document.activeElement === rows.get(Number(button.dataset.node)), "a suspect is shown in the tree");
    }
    for (const table of document.querySelectorAll("table.sortable")) {
      const heads = [...table.tHead.rows[0].cells];
      heads.forEach((head, column) => {
        for (let twice = 0; twice < 2; twice++) {
          head.firstElementChild.click();
          const sign = head.getAttribute("aria-sort") === "ascending" ? 1 : -1;
          const found = [...table.tBodies[0].rows].map((row) => value(row, column));
          is(found.every((one, at) => !at || compare(one, found[at - 1]) !== -sign), "sorted");
        }
      });
      const before = table.parentElement.previousElementSibling;
      const input = before && before.querySelector("input");
      if (input) {
        input.value = "\u0000 no such name";
        input.dispatchEvent(new Event("input"));
        is([...table.tBodies[0].rows].every((row) => row.hidden), "a filter hides");
        input.value = "";
        input.dispatchEvent(new Event("input"));
        is([...table.tBodies[0].rows].every((row) => !row.hidden), "and shows again");
      }
    }
    is(document.documentElement.scrollWidth <= window.innerWidth, "nothing sticks out of the page");
    const kinds = "h1, h2, h3, h4, p, td, th, a, button, dt, dd, .dim, .way, q, .badge";
    const shown = [...document.querySelectorAll(kinds)].filter((one) => !one.closest(".drawn, :disabled"));
    for (const one of shown.filter((each) => each.textContent.trim()).slice(0, 4000)) {
      if (contrast(one) < 4.5) throw new Error(`too pale: ${one.className || one.tagName} ${contrast(one).toFixed(1)}`);
    }
    is(shown.length > 10, "words stand out from what is behind them");
    return done;
  }

  if (location.hash === "#selftest") {
    let words;
    try {
      const scheme = window.matchMedia("(prefers-color-scheme: dark)").matches ? "dark" : "light";
      words = `selftest passed ${selftest()} ${scheme}`;
    } catch (fault) {
      words = `selftest failed: ${fault.message}`;
    }
    document.body.append(make("div", { id: "selftest-result", role: "status" }, words));
  }
})();
