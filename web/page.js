"use strict";
// The page hands texts to the WebAssembly and shows what comes back. What a packet or a board means, it doesn't know.

const part = (id) => document.getElementById(id);

// ---- The WebAssembly: whatif over the tested edition of the node ----

let wasm;

async function load() {
  const bytes = Uint8Array.from(atob(part("wasm").textContent), (letter) => letter.charCodeAt(0));
  wasm = (await WebAssembly.instantiate(bytes)).instance.exports;
}

// web/src/lib.rs has the questions.
function ask(question, text = "") {
  const bytes = new TextEncoder().encode(text);
  const room = wasm.room(bytes.length) >>> 0;
  new Uint8Array(wasm.memory.buffer, room, bytes.length).set(bytes);
  const answer = BigInt.asUintN(64, wasm[question]());
  const place = Number(answer >> 32n);
  const length = Number(answer & 0xffffffffn);
  return JSON.parse(new TextDecoder().decode(new Uint8Array(wasm.memory.buffer, place, length)));
}

// ---- The case: a board and the calls on it ----

let about;
let now; // { board: text, question: text, calls: [{ text, sum }] }
let earlier = []; // the cases that undo goes back to
let came; // what came of `now`: { told: one for each call, things }

const onBoard = (board) => ({ board, question: "", calls: [] });
const start = () => onBoard(about.board);

// What comes of a case; else what is wrong with its board or with the call at `call`.
function run({ board, calls }) {
  const begun = ask("begin", board);
  if (begun.mistake) return begun;
  const told = [];
  for (const { text, sum } of calls) {
    const answer = ask(sum ? "tell_summed" : "tell", text);
    if (answer.mistake) return { ...answer, call: told.length };
    told.push(answer);
  }
  return { told, things: ask("things").things };
}

// Goes on to a case, if nothing is wrong with it; else the old one stays. `before` is what undo is to find.
function change(next, before) {
  const answer = run(next);
  if (answer.mistake) {
    run(now);
    return answer;
  }
  earlier.push(...before);
  show(next, answer);
  return answer;
}

// A case from elsewhere: undo takes its calls back one by one.
function take(next, before) {
  const shorter = next.calls.map((_, count) => ({ ...next, calls: next.calls.slice(0, count) }));
  return change(next, [...before, ...shorter]);
}

function undo() {
  const last = earlier.pop();
  show(last, run(last));
}

// ---- Links: the whole case in the part of the address that is never sent ----

const LINK = "case1";

// FNV-1a, so that a link that was cut or changed on its way is known as such.
function check(text) {
  const sum = [...new TextEncoder().encode(text)].reduce((sum, byte) => Math.imul(sum ^ byte, 16777619), 2166136261);
  return (sum >>> 0).toString(16);
}

function words({ board, question, calls }) {
  return [["board", board], ["question", question], ...calls.map(({ text, sum }) => [sum ? "summed" : "call", text])];
}

function fragment(made) {
  const pairs = words(made);
  return `${LINK}&${new URLSearchParams([...pairs, ["check", check(JSON.stringify(pairs))]])}`;
}

// The case of a link, or null if it is none as a whole.
function linked(link) {
  const [kind, ...rest] = link.slice(link.indexOf("#") + 1).split("&");
  const pairs = [...new URLSearchParams(rest.join("&"))];
  const [, sum] = pairs.pop() ?? [];
  const names = pairs.map(([name]) => name).join(" ");
  if (kind !== LINK || sum !== check(JSON.stringify(pairs)) || !/^board question( call| summed)*$/.test(names)) return null;
  const [[, board], [, question], ...calls] = pairs;
  return { board, question, calls: calls.map(([name, text]) => ({ text, sum: name === "summed" })) };
}

// Opens a link; else says in words what is wrong with it.
function openLink(link, before) {
  const next = linked(link);
  if (!next) return "This link is broken or was cut off on its way. Ask for it anew.";
  const { mistake, call } = take(next, before);
  if (!mistake) return "";
  return `This link can't be run: ${call === undefined ? "its board" : `its call ${call + 1}`}: ${mistake}`;
}

// ---- Showing ----

function element(name, attributes = {}, ...children) {
  const made = document.createElement(name);
  Object.assign(made, attributes);
  made.append(...children);
  return made;
}

function show(next, answer) {
  const isNewBoard = next.board !== now?.board;
  now = next;
  came = answer;
  showHistory();
  showThings();
  showHandbook();
  showCall(came.told.length - 1);
  showLink();
  if (isNewBoard) showBoard();
  ["notice", "line-mistake", "sent-mistake"].forEach((id) => complain(id, ""));
}

// What was typed of another board stays until there is one.
function showBoard() {
  part("board-text").value = now.board;
  fillForm();
  complain("board-mistake", "");
  complain("form-mistake", "");
}

function showCall(place) {
  const told = came.told[place];
  part("outcome").className = told ? `told ${isRefused(told.facts) ? "refused" : ""}` : "";
  part("outcome").textContent = told ? told.facts.outcome : "Type a packet and run it, or choose a question.";
  part("facts").replaceChildren(...(told ? factsOf(told.facts) : []));
  part("as-text").hidden = !told;
  part("text").textContent = told ? told.text : "";
  [...part("calls-so-far").children].forEach((item, at) => item.firstChild.setAttribute("aria-current", at === place));
}

// The facts that are for a reader, in whatif's order and under its names.
const FOR_PROGRAMS = ["ended", "step"];

// Whether a step of the wire errors decided, or a local refusal.
const isRefused = ({ ended, step }) => step !== undefined || Boolean(ended?.startsWith("refused"));

// What came of a captured reply, where it is known.
function outcomeOf(facts) {
  if (!facts.outcome) return [];
  return [element("p", { className: `told ${isRefused(facts) ? "refused" : ""}`, textContent: facts.outcome })];
}

function factsOf(facts) {
  const told = Object.entries(facts).filter(([name]) => name !== "outcome" && !FOR_PROGRAMS.includes(name));
  return told.flatMap(([name, fact]) => [element("h3", { textContent: name }), factOf(name, fact)]);
}

function factOf(name, fact) {
  if (typeof fact === "string") return element("p", { textContent: fact });
  if (!Array.isArray(fact)) return tableOf(name, fact);
  if (fact.length === 0) return element("p", { textContent: "nothing" });
  return element("ul", { className: "facts" }, ...fact.map((line) => element("li", { textContent: line })));
}

// A packet or another call, field by field.
function tableOf(name, { bytes, words, parts }) {
  const head = ["Field", "Bytes", "Meaning"].map((textContent) => element("th", { textContent, scope: "col" }));
  const rows = parts.map((field) =>
    element(
      "tr",
      {},
      element("th", { textContent: field.name, scope: "row" }),
      element("td", { className: "bytes" }, bytesOf(field.bytes ?? field.words)),
      element("td", { textContent: field.meaning }),
    ),
  );
  const table = element("table", { className: "fields" }, element("thead", {}, element("tr", {}, ...head)), element("tbody", {}, ...rows));
  table.setAttribute("aria-label", `${name}, field by field`);
  return element("div", {}, element("p", { className: "bytes" }, bytesOf(bytes ?? words)), table);
}

// Many bytes are shown in a box of their own, which is scrolled by keyboard too.
function bytesOf(text) {
  return text.length > 120 ? element("div", { className: "long", tabIndex: 0, role: "group", ariaLabel: "bytes", textContent: text }) : text;
}

function showHandbook() {
  const found = about.questions.find(({ question }) => question === now.question);
  part("handbook").hidden = !found;
  part("question").value = found ? String(about.questions.indexOf(found)) : "";
  if (!found) return;
  const says = found.says.map((textContent) => element("blockquote", { textContent }));
  part("handbook").replaceChildren(element("h3", { textContent: found.question }), element("p", { textContent: found.answer }), ...says);
}

// A button with a line as whatif takes it, and a word about it.
function choice(line, about, onclick) {
  return element("button", { type: "button", onclick }, element("strong", { textContent: line }), element("span", { textContent: about }));
}

function showHistory() {
  const items = now.calls.map(({ text, sum }, place) => {
    const { facts } = came.told[place];
    const said = sum && facts.packet ? `${text}, checksum added` : text; // other calls have none
    return element("li", {}, choice(said, facts.outcome, () => showCall(place)));
  });
  part("calls-so-far").replaceChildren(...items);
  part("no-calls").hidden = items.length > 0;
  part("undo").disabled = earlier.length === 0;
}

function showLink() {
  const isStart = now.calls.length === 0 && now.board === about.board;
  const address = location.href.split("#")[0] + (isStart ? "" : `#${fragment(now)}`);
  part("link").value = address;
  part("copied").textContent = "";
  try {
    history.replaceState(null, "", address); // so that the case outlasts loading the page anew
  } catch {
    // Some viewers of attachments forbid it, and do without.
  }
}

function showThings() {
  const rows = came.things.map(({ name, what, holds, number, busy }) => {
    const thing = element("th", { scope: "row" }, name, element("span", { textContent: what }));
    const mark = element("td");
    if (number !== undefined) mark.append(busyMark(name, number, busy));
    return element("tr", {}, thing, element("td", { className: "bytes", textContent: holds ?? "" }), mark);
  });
  part("things").replaceChildren(...rows);
}

function busyMark(name, number, checked) {
  const box = element("input", { type: "checkbox", checked, value: number, onchange: markBusy });
  box.setAttribute("aria-label", `${name} is busy`);
  return element("label", { className: "check" }, box);
}

// ---- Mistakes: said beside the field, whose text stays ----

function complain(id, message) {
  part(id).hidden = !message;
  part(id).textContent = message;
  document.querySelector(`[aria-describedby="${id}"]`)?.setAttribute("aria-invalid", Boolean(message));
}

// With the text, and the letter marked where it goes wrong, if that is known.
function complainOf(field, { mistake, place }) {
  const id = field.getAttribute("aria-describedby");
  complain(id, mistake);
  field.focus();
  if (place === undefined) return;
  const letters = [...field.value];
  const wrong = element("mark", { textContent: letters[place - 1] });
  const around = element("code", { className: "place" }, letters.slice(0, place - 1).join(""), wrong, letters.slice(place).join(""));
  part(id).append(around);
  const before = letters.slice(0, place - 1).join("").length;
  field.setSelectionRange(before, before + letters[place - 1].length);
}

function selectLine(field, line) {
  const lines = field.value.split("\n");
  const before = lines.slice(0, line - 1).reduce((sum, text) => sum + text.length + 1, 0);
  field.focus();
  field.setSelectionRange(before, before + lines[line - 1].length);
}

// ---- What is asked ----

function runLine(event) {
  event.preventDefault();
  const call = { text: part("line").value, sum: part("sum").checked };
  const answer = change({ ...now, calls: [...now.calls, call] }, [now]);
  if (answer.mistake) return complainOf(part("line"), answer);
  goToAnswer();
}

// Where the answer stands below what was asked, it comes into sight.
function goToAnswer() {
  if (matchMedia("(max-width: 64rem)").matches) part("answer").scrollIntoView({ block: "start" });
}

// Busy marks are a line as whatif takes it. Marks right after marks take their place.
function markBusy({ target }) {
  const marked = [...part("things").querySelectorAll("input:checked")].map((box) => box.value);
  const isMarks = came.told.length > 0 && came.told[came.told.length - 1].facts.busy;
  const calls = isMarks ? now.calls.slice(0, -1) : now.calls;
  change({ ...now, calls: [...calls, { text: `busy ${marked.join(" ")}`.trim(), sum: false }] }, [now]);
  part("things").querySelector(`input[value="${target.value}"]`).focus(); // the table is a new one
}

function showQuestion(event) {
  event.preventDefault();
  const found = about.questions[part("question").value];
  if (!found) return;
  const calls = found.lines.map((text) => ({ text, sum: false }));
  take({ board: found.board, question: found.question, calls }, [now]);
  goToAnswer();
}

function decode(event) {
  event.preventDefault();
  const answer = ask("decode", `${part("request").value}\n${part("reply").value}`);
  ["request-mistake", "reply-mistake"].forEach((id) => complain(id, ""));
  part("reply-facts").replaceChildren(...(answer.facts ? [...outcomeOf(answer.facts), ...factsOf(answer.facts)] : []));
  if (answer.mistake) complainOf(part(answer.field ?? "reply"), answer);
}

function startKeyword(keyword) {
  part("line").value = `${keyword} `;
  part("line").focus();
}

function openSent(event) {
  event.preventDefault();
  const wrong = openLink(part("sent").value.trim(), [now]);
  complain("sent-mistake", wrong);
}

async function copyLink() {
  part("link").select();
  try {
    await navigator.clipboard.writeText(part("link").value);
    part("copied").textContent = "Copied.";
  } catch {
    part("copied").textContent = "Copy the marked text by hand: this browser doesn't let the page do it.";
  }
}

// ---- Another board ----

const useBoard = (board) => change(onBoard(board), [now]);

function useHandbook(event) {
  event.preventDefault();
  useBoard(about.boards[part("handbook-board").value].text);
}

function useFile(event) {
  event.preventDefault();
  const field = part("board-text");
  const { mistake, line } = useBoard(field.value);
  complain("board-mistake", mistake ? `${mistake}. The board is as it was.` : "");
  if (line) selectLine(field, line);
}

const LONGEST_FILE = 1e6;

async function readFile(event) {
  const [file] = event.target.files;
  if (!file) return;
  event.target.value = ""; // so that the same file can be taken again
  if (file.size > LONGEST_FILE) return complain("board-mistake", `${file.name} is too long for a board file. The board is as it was.`);
  part("board-text").value = await file.text();
  useFile(event);
}

const fieldsOf = (row) => [...row.querySelectorAll("input, select")];

function addRow(line, texts) {
  const row = part(`${line}-row`).content.firstElementChild.cloneNode(true);
  row.querySelector(".remove").onclick = () => row.remove();
  document.querySelector(`[data-rows="${line}"]`).append(row);
  texts?.forEach((text, place) => (fieldsOf(row)[place].value = text));
  return row;
}

// The form has a row for each line of the board file, and a field for each of its words.
function fillForm() {
  for (const [line, rows] of Object.entries(ask("form", now.board))) {
    const place = document.querySelector(`[data-rows="${line}"]`);
    if (!place) fieldsOf(document.querySelector(`[data-line="${line}"]`))[0].value = rows[0][0];
    place?.replaceChildren();
    if (place) rows.forEach((texts) => addRow(line, texts));
  }
}

// What a thing holds stands after a word that says how it is given; both are left out where nothing is said.
function lineOf(row) {
  const given = row.querySelector(".given");
  const texts = fieldsOf(row).filter((field) => field !== given).map((field) => {
    const word = field.dataset.word ?? (field.matches(".holds") ? given.value : "");
    return field.value.trim() ? `${word} ${field.value}` : "";
  });
  return [row.dataset.line, ...texts].join(" ").replace(/\s+/g, " ").trim();
}

function useForm(event) {
  event.preventDefault();
  const rows = [...part("board-form").querySelectorAll("[data-line]")];
  const { mistake, line } = useBoard(rows.map(lineOf).join("\n"));
  complain("form-mistake", mistake ? `${mistake}. The board is as it was.` : "");
  rows.forEach((row, place) => row.setAttribute("aria-invalid", place + 1 === line));
  if (line) fieldsOf(rows[line - 1])[0].focus();
}

// ---- The start ----

function fillHandbook() {
  const sections = new Map(about.questions.map(({ section }) => [section, element("optgroup", { label: section })]));
  about.questions.forEach(({ section, question }, place) => sections.get(section).append(element("option", { value: place, textContent: question })));
  part("question").append(...sections.values());
  part("handbook-board").append(...about.boards.map(({ name }, value) => element("option", { value, textContent: name })));
}

function fillCalls() {
  const items = about.calls.map(({ keyword, form, means }) => element("li", {}, choice(form, means, () => startKeyword(keyword))));
  part("calls").append(...items);
}

function listen() {
  part("question-form").onsubmit = showQuestion;
  part("line-form").onsubmit = runLine;
  part("reply-form").onsubmit = decode;
  part("open-form").onsubmit = openSent;
  part("handbook-form").onsubmit = useHandbook;
  part("file-form").onsubmit = useFile;
  part("board-form").onsubmit = useForm;
  part("file").onchange = readFile;
  part("undo").onclick = undo;
  part("anew").onclick = () => useBoard(now.board);
  part("copy").onclick = copyLink;
  part("line").onkeydown = (event) => {
    if (event.key === "Enter" && !event.shiftKey) runLine(event);
  };
  document.querySelectorAll("[data-add]").forEach((button) => {
    button.onclick = () => fieldsOf(addRow(button.dataset.add))[0].focus();
  });
  addEventListener("hashchange", () => openAddress([...earlier, now]));
}

// The case that the page's own address carries, if it carries one; a broken one leaves an empty start.
function openAddress(before) {
  const link = location.hash;
  earlier = before;
  show(start(), run(start()));
  if (link.length > 1) complain("notice", openLink(link, []));
}

async function main() {
  await load();
  about = ask("about");
  part("version").textContent = about.version;
  part("board-files").textContent = about.board_files;
  fillHandbook();
  fillCalls();
  listen();
  openAddress([]);
}

addEventListener("unhandledrejection", ({ reason }) => complain("notice", `The page met an error of its own; load it anew. (${reason})`));
addEventListener("error", ({ message }) => complain("notice", `The page met an error of its own; load it anew. (${message})`));
main();
