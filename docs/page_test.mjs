// Drives a page by the browser's debugging protocol, for docs/page_test: ADDRESS URL FOLDER.
import { writeFileSync } from "node:fs";

const [address, url, folder] = process.argv.slice(2);
const socket = new WebSocket(address);
await new Promise((resolve, reject) => {
  socket.onopen = resolve;
  socket.onerror = reject;
});
const waiting = new Map();
const troubles = [];
let loaded = () => {};
let number = 0;
socket.onmessage = (message) => {
  const told = JSON.parse(message.data);
  if (told.id) {
    waiting.get(told.id)(told);
    waiting.delete(told.id);
  } else if (told.method === "Page.loadEventFired") loaded();
  else if (told.method === "Runtime.exceptionThrown") troubles.push(told.params.exceptionDetails.exception?.description);
  else if (told.method === "Network.requestWillBeSent") troubles.push(...askedOf(told.params.request.url));
};

// What is asked of a network; the page itself is not.
function askedOf(asked) {
  return asked.startsWith("file:") ? [] : [`asks for ${asked}`];
}

let session;
async function send(method, params = {}) {
  number += 1;
  const id = number;
  const answer = new Promise((resolve) => waiting.set(id, resolve));
  socket.send(JSON.stringify({ id, method, params, sessionId: session }));
  const { result, error } = await answer;
  if (error) throw new Error(`${method}: ${error.message}`);
  return result;
}

async function value(expression) {
  const { result, exceptionDetails } = await send("Runtime.evaluate", { expression, returnByValue: true });
  if (exceptionDetails) throw new Error(`${expression}: ${exceptionDetails.exception?.description}`);
  return result.value;
}

let failed = 0;
async function see(what, expression) {
  const good = await value(expression);
  console.log(`${good === true ? "ok     " : "NOT SO "} ${what}`);
  if (good !== true) failed += 1;
}

// A click of the mouse in the middle of an element, which is scrolled to first.
async function click(selector) {
  const place = await value(`(() => {
    const found = document.querySelector(${JSON.stringify(selector)});
    found.scrollIntoView({ block: "center", inline: "center" });
    const box = found.getBoundingClientRect();
    return { x: box.x + box.width / 2, y: box.y + box.height / 2 };
  })()`);
  for (const type of ["mousePressed", "mouseReleased"]) {
    await send("Input.dispatchMouseEvent", { type, x: place.x, y: place.y, button: "left", clickCount: 1 });
  }
}

const keys = { ArrowLeft: 37, ArrowRight: 39, Tab: 9, Enter: 13, Home: 36 };
async function press(key) {
  const text = key === "Enter" ? { text: "\r" } : {};
  const pressed = { key, code: key, windowsVirtualKeyCode: keys[key] };
  await send("Input.dispatchKeyEvent", { type: "keyDown", ...pressed, ...text });
  await send("Input.dispatchKeyEvent", { type: "keyUp", ...pressed });
}

async function width(pixels) {
  await send("Emulation.setDeviceMetricsOverride", { width: pixels, height: 900, deviceScaleFactor: 1, mobile: false });
}

async function picture(name, whole = false) {
  const { data } = await send("Page.captureScreenshot", { format: "png", captureBeyondViewport: whole });
  writeFileSync(`${folder}/${name}.png`, Buffer.from(data, "base64"));
}

const { targetId } = await send("Target.createTarget", { url: "about:blank" });
({ sessionId: session } = await send("Target.attachToTarget", { targetId, flatten: true }));
for (const domain of ["Page", "Runtime", "Network"]) await send(`${domain}.enable`);
await width(1200);
const arrived = new Promise((resolve) => (loaded = resolve));
await send("Page.navigate", { url });
await arrived;

const table = `document.getElementById("rows").textContent`;
const at = `Number(document.getElementById("entry").value)`;
const last = `Number(document.getElementById("entry").max)`;
const inside = (selector, frame) => `(() => {
  const own = document.querySelector(${JSON.stringify(selector)}).getBoundingClientRect();
  const room = document.querySelector(${JSON.stringify(frame)}).getBoundingClientRect();
  return own.top >= room.top - 1 && own.left >= room.left - 1 && own.top < room.bottom && own.left < room.right
    && own.top >= -1 && own.top < innerHeight;
})()`;

await see("the page begins as HTML of today's kind", `document.compatMode === "CSS1Compat"`);
await see("no element has an event handler of its own", `[...document.querySelectorAll("*")].every((found) =>
  [...found.attributes].every((attribute) => !attribute.name.startsWith("on")))`);
await see("each line is named by its process and number", `[...document.querySelectorAll(".line")].every((line) =>
  line.id === "l" + line.dataset.line && /^\\d+-\\d+$/.test(line.dataset.line))`);
await see("each box has its line", `[...document.querySelectorAll(".box")].every((box) =>
  document.getElementById("l" + box.dataset.line) !== null)`);
await see("there are boxes", `document.querySelectorAll(".box").length > 0`);
if (failed > 0) process.exit(1);
await picture("1200-first");

const box = await value(`[...document.querySelectorAll(".box")].at(-1).id`);
await click(`#${box}`);
const line = await value(`"l" + document.getElementById("${box}").dataset.line`);
await see("a click on a box marks its line", `document.getElementById("${line}").classList.contains("marked")`);
await see("and nothing else", `document.querySelectorAll(".line.marked").length === 1`);
await see("and scrolls to it", inside(`#${line}`, "#lines"));
await picture("1200-box");

const first = await value(`"l" + document.querySelector(".box").dataset.line`);
await click(`#${first}`);
await see("a click on a line marks its box", `document.querySelector(".box").classList.contains("marked")`);
await see("and takes the mark from the other", `"${first}" === "${line}" || !document.getElementById("${box}").classList.contains("marked")`);
await see("and scrolls to it", inside(".box.marked", "#drawing"));

await value(`document.activeElement.blur()`);
const changing = await value(`JSON.parse(document.getElementById("run").textContent).entries.findIndex((entry) =>
  entry.changes.some((change) => change.before && change.after && change.before.modes !== change.after.modes)) + 1`);
await value(`(() => { const slider = document.getElementById("entry"); slider.value = ${Math.max(0, changing - 1)};
  slider.dispatchEvent(new Event("input")); })()`);
const before = await value(table);
await press("ArrowRight");
await see("Right goes to the next entry", `${at} === ${Math.max(0, changing - 1) + 1}`);
if (changing > 0) {
  await see("and the table changes", `${table} !== ${JSON.stringify(before)}`);
  await see("with what was gained or lost", `document.querySelectorAll("#rows ins, #rows del").length > 0`);
}
await picture("1200-entry");
await press("ArrowLeft");
await see("Left goes back", `${at} === ${Math.max(0, changing - 1)}`);
await see("to the same table", `${table} === ${JSON.stringify(before)}`);
const walked = `(() => {
  const slider = document.getElementById("entry");
  const seen = [];
  const go = (to) => { slider.value = to; slider.dispatchEvent(new Event("input")); return ${table}; };
  for (let entry = 0; entry <= ${last}; entry += 1) seen.push(go(entry));
  for (let entry = ${last}; entry >= 0; entry -= 1) if (go(entry) !== seen[entry]) return false;
  return seen.every((told, entry) => (go(${last}), go(0), go(entry)) === told);
})()`;
await see("each entry has the same table from either side", walked);

// What the lines tell of each reference at its point, beside what the table has of that number after that entry.
const agreed = `(() => {
  const run = JSON.parse(document.getElementById("run").textContent);
  const rows = new Map();
  const after = [run.start, ...run.entries.map((entry) => entry.changes)].map((changes) => {
    for (const change of changes) rows.set(change.process + " " + change.number, change.after);
    return new Map(rows);
  });
  const words = (access) => !access ? "no segment"
    : access.modes + (access.by === "no entry matches" ? ": " : access.by && " by ") + access.by
      + (access.brackets && ", brackets " + access.brackets + ", " + access.size);
  let number;
  for (const line of document.querySelectorAll(".line")) {
    for (const told of line.textContent.split("\\n")) {
      number = /^    (?:read|ind|write|fetch|call|return) ([0-7]+)[|][0-7]+ in ring/.exec(told)?.[1] ?? number;
      const judged = /^        at point (\\d+): (.*), (?:since entry \\d+|from the start)$/.exec(told);
      if (judged && words(after[judged[1]].get(line.dataset.line.split("-")[0] + " " + number)) !== judged[2]) return told;
    }
  }
  return true;
})()`;
await see("each reference was judged on what the table has there", agreed);

await value(`document.getElementById("entry").focus()`);
const here = await value(at);
await press("ArrowRight");
await see("Right goes one entry on at the slider itself", `${at} === Math.min(${here} + 1, ${last})`);
await value(`document.querySelector("#drawing").focus()`);
await press("Tab");
await see("Tab goes into the drawing", `document.activeElement.classList.contains("box")`);
await see("the focus is to be seen", `getComputedStyle(document.activeElement).outlineStyle !== "none"`);
await picture("1200-focus");
await press("Enter");
await see("Enter chooses a box", `document.getElementById("l" + document.activeElement.dataset.line).classList.contains("marked")`);
await value(`document.querySelector(".line").focus()`);
await press("Enter");
await see("Enter chooses a line", `document.querySelector(".line").classList.contains("marked")`);
await see("1,200 pixels are wide enough", `document.documentElement.scrollWidth <= 1200`);

await width(800);
await click(`#${box}`);
await see("800 pixels are wide enough", `document.documentElement.scrollWidth <= 800`);
await see("and a click scrolls to the line there too", inside(`#${line}`, "#lines"));
await picture("800-line");
await value(`scrollTo(0, 0)`);
await picture("800-top");
await value(`document.getElementById("accesses").scrollIntoView()`);
await picture("800-table");

for (const trouble of troubles) console.log(`NOT SO  ${trouble}`);
socket.close();
process.exit(failed + troubles.length > 0 ? 1 : 0);
