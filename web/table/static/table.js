// A little help, without which everything works: each game is kept in this browser as it grows, a click on a square fills the place of the play, a
// click on a line opens it, and what takes long is fetched. What is kept is only ever shown as text.
"use strict";

const move = document.getElementById("move");
const table = document.getElementById("entered");
const places = /^\s*(?:\d{1,2}[A-Oa-o]|[A-Oa-o]\d{1,2})?\s*/;
const PREFIX = "game ";

// The games that this browser keeps.
function kept(key) {
  try {
    const game = JSON.parse(localStorage.getItem(key));
    return game && typeof game.text === "string" ? game : null;
  } catch {
    return null;
  }
}

function keys() {
  try {
    return Object.keys(localStorage).filter(key => key.startsWith(PREFIX) && kept(key));
  } catch {
    return [];
  }
}

function keep() {
  const key = PREFIX + table.dataset.id, old = kept(key), lines = Number(table.dataset.lines);
  const came = performance.getEntriesByType("navigation")[0];
  if (!table.dataset.id || old && came && came.type !== "navigate") {
    return;
  }
  const names = [...document.querySelectorAll(".score .name")].map(it => it.textContent);
  const points = [...document.querySelectorAll(".score b")].map(it => it.textContent);
  const parts = new URLSearchParams(location.search);
  const of = { list: parts.get("list") || "", rules: parts.get("rules") || "", over: table.dataset.over === "1" };
  const game = { names, points, lines, last: table.dataset.last, text: document.getElementById("draft").defaultValue, at: Date.now(), ...of };
  if (old && old.lines > lines + 1) {
    localStorage.setItem(`${key} ${old.lines}`, JSON.stringify(old));
  }
  localStorage.setItem(key, JSON.stringify(game));
}

// An earlier page of a game leads to its last one.
function compare() {
  const last = kept(PREFIX + table.dataset.id);
  const isOld = last !== null && last.text !== document.getElementById("draft").defaultValue;
  document.getElementById("newer").hidden = !isOld;
  if (isOld) {
    document.getElementById("newest").elements.game.value = last.text;
  }
}

if (table) {
  try {
    keep();
    window.addEventListener("pageshow", compare);
  } catch {
    // This browser keeps nothing, so whoever leaves is asked first.
    let isSent = false;
    document.addEventListener("submit", () => { isSent = true; });
    window.addEventListener("beforeunload", event => isSent || event.preventDefault());
  }
}

// The first page lists them.
function row(key) {
  const game = kept(key), it = document.getElementById("kept-game").content.cloneNode(true).firstElementChild;
  const put = (name, text) => { it.querySelector(`.${name}`).textContent = text; };
  put("names", (game.names || []).join(" and "));
  put("points", (game.points || []).join(" : "));
  put("last", game.over ? "complete" : game.last || "no line yet");
  put("when", new Date(game.at).toLocaleString([], { weekday: "short", day: "numeric", month: "short", hour: "2-digit", minute: "2-digit" }));
  const form = it.querySelector("form");
  form.elements.id.value = key.slice(PREFIX.length);
  for (const name of ["list", "rules"]) {
    form.elements[name].value = game[name] || "";
  }
  form.elements.game.value = game.text;
  it.querySelector(".remove").addEventListener("click", () => {
    if (confirm(`Remove the game of ${(game.names || []).join(" and ")}?`)) {
      localStorage.removeItem(key);
      list();
    }
  });
  return it;
}

function list() {
  const found = keys().sort((one, other) => kept(other).at - kept(one).at);
  document.getElementById("tonight").hidden = found.length === 0;
  document.querySelector(".games").replaceChildren(...found.map(row));
  document.querySelector("#evening .texts").replaceChildren(...found.flatMap(key => {
    const game = kept(key);
    return [["games", game.text], ["lists", game.list || ""], ["rules-of", game.rules || ""]].map(([name, value]) => {
      const field = document.createElement("textarea");
      field.name = name;
      field.value = value;
      field.setAttribute("aria-label", name);
      return field;
    });
  }));
}

if (document.getElementById("tonight")) {
  list();
  window.addEventListener("pageshow", list);
}

// A click on a square fills the place of the play, and a second one turns it.
function fill(event) {
  const button = event.target.closest("button[value^='square-']");
  if (!button) {
    return;
  }
  event.preventDefault();
  const [, row, column] = button.value.match(/square-(\d+)([A-O])/);
  const across = row + column, down = column + row;
  const now = move.value.trim().split(/\s+/)[0].toUpperCase();
  const word = move.value.replace(places, "");
  document.getElementById("kind-play").checked = true;
  move.value = `${now === across ? down : across} ${word}`;
  move.focus();
}

if (move) {
  document.querySelector(".board").addEventListener("click", fill);
  window.visualViewport?.addEventListener("resize", () => document.activeElement === move && move.scrollIntoView({ block: "nearest" }));
}

// What is typed already can be gone on with.
const typed = document.querySelector("input[autofocus]");
typed?.setSelectionRange(typed.value.length, typed.value.length);

// A click anywhere on a line of the sheet opens it.
document.querySelector(".lines")?.addEventListener("click", event => {
  if (!event.target.closest("button, input, label, form")) {
    event.target.closest("tr.line")?.querySelector("button").click();
  }
});

// A challenge opens beside the game.
document.querySelector("a[href='#challenge']")?.addEventListener("click", () => {
  document.getElementById("challenge").open = true;
  document.getElementById("words").focus();
});

// A file that is chosen takes the place of the pasted text, and the form says so.
for (const file of document.querySelectorAll("input[type=file]")) {
  const text = document.getElementById(file.id.replace("-file", ""));
  file.addEventListener("change", () => text.classList.toggle("unused", file.files.length > 0));
}

// What takes long comes when it is there.
async function fetchLater(form) {
  const answer = await fetch(form.action, { method: "POST", body: new URLSearchParams(new FormData(form)) });
  const found = new DOMParser().parseFromString(await answer.text(), "text/html").getElementById("found");
  if (found) {
    document.getElementById("found").replaceWith(document.importNode(found, true));
  }
}

const later = document.querySelector("#later form");
if (later) {
  fetchLater(later).catch(() => {});
}
