"use strict";
(() => {
  const run = JSON.parse(document.getElementById("run").textContent);
  const drawing = document.getElementById("drawing");
  const slider = document.getElementById("entry");
  const stacks = document.getElementById("stacks");
  const lines = [...document.querySelectorAll("#lines .line")];
  const boxes = [...drawing.querySelectorAll(".box")];

  // What each entry changes, behind what stands before the first. What a number stood for before a change is known from the
  // change before it, so that there is a way back.
  const steps = [run.start, ...run.entries.map((entry) => entry.changes)];
  const paths = new Map();
  for (const change of steps.flat()) {
    change.key = `${change.process} ${change.number}`;
    change.was = paths.get(change.key) ?? change.path;
    change.path ||= change.was;
    paths.set(change.key, change.path);
  }

  // The rows after the entry `at`: what each number of a process stands for, and gives.
  const rows = new Map();
  let at = -1;

  function put(change, path, access) {
    const { key, process, number } = change;
    rows.set(key, { key, process, number: parseInt(number, 8), path, access });
  }

  function move(to) {
    const entry = Math.max(0, Math.min(run.entries.length, to));
    while (at < entry) {
      at += 1;
      for (const change of steps[at]) put(change, change.path, change.after);
    }
    while (at > entry) {
      for (const change of [...steps[at]].reverse()) put(change, change.was, change.before);
      at -= 1;
    }
  }

  // The rows that the entry changed, as they were.
  function earlier() {
    const found = new Map();
    if (at === 0) return found;
    for (const change of steps[at]) {
      if (!found.has(change.key)) found.set(change.key, { path: change.was, access: change.before });
    }
    return found;
  }

  function add(parent, tag, text) {
    const made = document.createElement(tag);
    made.textContent = text;
    parent.append(made);
    return made;
  }

  // Adds words as they are, with what they were where that is another: neither a gain nor a loss, if there are both.
  function addWords(cell, was, is) {
    if (was === is) cell.append(is);
    else if (!was) add(cell, "ins", is);
    else if (!is) add(cell, "del", was);
    else {
      add(cell, "s", was);
      cell.append(" ");
      add(cell, "b", is);
    }
  }

  // Adds modes letter by letter.
  function addModes(cell, was, is) {
    const letters = (word) => (/^[rew]+$/.test(word) ? word : "");
    for (const letter of "rew") {
      const [had, has] = [letters(was).includes(letter), letters(is).includes(letter)];
      if (had || has) add(cell, had === has ? "span" : has ? "ins" : "del", letter);
    }
    if (letters(is) === "" && is) cell.append(cell.childNodes.length ? " " : "", is);
  }

  function addRow(body, row, before) {
    const none = { modes: "", brackets: "", size: "", by: "" };
    const was = (before ? before.access : row.access) ?? none;
    const is = row.access ?? none;
    const line = add(body, "tr", "");
    const cell = () => add(line, "td", "");
    const number = row.number.toString(8);
    addWords(cell(), was === none ? "" : number, is === none ? "" : number);
    addWords(cell(), was === none ? "" : before ? before.path : row.path, is === none ? "" : row.path);
    addModes(cell(), was.modes, is.modes);
    addWords(cell(), was.brackets, is.brackets);
    addWords(cell(), was.size, is.size);
    addWords(cell(), was.by, is.by);
  }

  function showRows() {
    const body = document.getElementById("rows");
    body.replaceChildren();
    const changed = earlier();
    const order = [...rows.values()].sort((a, b) => a.process - b.process || a.number - b.number);
    let process = 0;
    for (const row of order) {
      const before = changed.get(row.key);
      if (row.access === null && !before?.access) continue;
      if (row.number < 8 && !stacks.checked) continue;
      if (row.process !== process) {
        process = row.process;
        const head = add(add(body, "tr", ""), "th", `process ${process}: ${run.processes[process - 1]}`);
        head.colSpan = 6;
        head.scope = "rowgroup";
      }
      addRow(body, row, before);
    }
    if (process === 0) add(add(body, "tr", ""), "td", "no process has a segment number yet").colSpan = 6;
  }

  // The mark of an entry in the drawing, where several may have one, which is named by the first.
  function markOf(entry) {
    for (let first = entry; first > 0; first -= 1) {
      const mark = document.getElementById(`e${first}`);
      if (mark) return mark;
    }
    return null;
  }

  // Goes to an entry: the slider, the table, the entry in the drawing, and the line that made it.
  function go(to, scroll) {
    move(to);
    slider.value = at;
    document.getElementById("number").textContent = at;
    const entry = run.entries[at - 1];
    const told = entry ? `process ${entry.process} in ring ${entry.ring}: ${entry.request}\n${entry.reply}` : "before the first entry";
    document.getElementById("told").textContent = told;
    slider.setAttribute("aria-valuetext", `entry ${at}: ${told}`);
    showRows();
    for (const mark of document.querySelectorAll(".now")) mark.classList.remove("now");
    const here = [markOf(at), lines.find((line) => Number(line.dataset.entry) === at)];
    for (const mark of here) {
      mark?.classList.add("now");
      if (scroll) mark?.scrollIntoView({ block: "nearest", inline: "nearest" });
    }
  }

  // Marks a line and its boxes, scrolls to the other kind, and goes to the entry on which it stood.
  function choose(mark) {
    for (const marked of document.querySelectorAll(".marked")) {
      marked.classList.remove("marked");
      marked.removeAttribute("aria-current");
    }
    const id = mark.dataset.line;
    const line = lines.find((other) => other.dataset.line === id);
    const own = boxes.filter((box) => box.dataset.line === id);
    for (const marked of own.concat(line ?? [])) {
      marked.classList.add("marked");
      marked.setAttribute("aria-current", "true");
    }
    const place = line?.dataset.entry ?? line?.dataset.point;
    if (place !== undefined) go(Number(place), false);
    if (mark === line) own[0]?.scrollIntoView({ block: "nearest", inline: "center" });
    else line?.scrollIntoView({ block: "center" });
  }

  for (const mark of [...lines, ...boxes]) {
    mark.setAttribute("tabindex", "0");
    mark.setAttribute("role", "button");
    mark.addEventListener("click", () => choose(mark));
  }
  for (const box of boxes) {
    const name = box.querySelector("title")?.textContent ?? "";
    box.setAttribute("aria-label", `line ${box.dataset.line}: ${name}`);
  }
  for (const mark of drawing.querySelectorAll(".entry")) {
    mark.addEventListener("click", () => go(Number(mark.id.slice(1)), true));
  }
  document.addEventListener("keydown", (event) => {
    if (event.altKey || event.ctrlKey || event.metaKey || event.shiftKey) return;
    const by = { ArrowLeft: -1, ArrowRight: 1 }[event.key];
    const mark = event.target.closest(".line, .box");
    if (by && event.target !== slider) go(at + by, true);
    else if (mark && (event.key === "Enter" || event.key === " ")) choose(mark);
    else return;
    event.preventDefault();
  });

  // A drawing that is a little wider than its frame is drawn smaller.
  const picture = drawing.querySelector("svg");
  const fit = () => picture?.classList.toggle("fits", picture.width.baseVal.value <= drawing.clientWidth * 1.1);
  addEventListener("resize", fit);
  fit();
  slider.max = run.entries.length;
  slider.addEventListener("input", () => go(Number(slider.value), true));
  stacks.addEventListener("change", showRows);
  go(0, false);
})();
