"use strict";
const at = (id) => document.getElementById(id);
const FILES = ["table", "keys", "script"];
const EXAMPLES = JSON.parse(at("examples").textContent);
const LETTERS = { r: "read", w: "write", c: "write without response", n: "be notified", i: "be indicated", s: "subscribe" };
let compiled, base;

/** The most octets that are unpacked: the files of an address, or the module, have far fewer. */
const MOST_OCTETS = 16 << 20;

/** Returns the octets of a stream that a text in base64 gives through a decompressor. */
async function unpacked(text, format) {
  const octets = Uint8Array.from(atob(text), (it) => it.charCodeAt(0));
  const reader = new Blob([octets]).stream().pipeThrough(new DecompressionStream(format)).getReader();
  const parts = [];
  for (let count = 0, part; !(part = await reader.read()).done; ) {
    parts.push(part.value);
    count += part.value.length;
    if (count > MOST_OCTETS) {
      await reader.cancel();
      throw new RangeError("it is too large");
    }
  }
  return new Uint8Array(await new Blob(parts).arrayBuffer());
}

/** Calls a function of the module over texts, in an instance of its own. Returns its status and its text. */
function call(name, ...texts) {
  for (let size = 1 << 20; ; size *= 4) {
    const { exports } = new WebAssembly.Instance(compiled, {});
    const words = [];
    for (const text of texts) {
      const octets = new TextEncoder().encode(text);
      const place = exports.page_room(BigInt(octets.length));
      new Uint8Array(exports.memory.buffer).set(octets, Number(place));
      words.push(place, BigInt(octets.length));
    }
    const out = exports.page_room(BigInt(size)), count = exports.page_room(8n);
    const status = exports[name](...words, out, BigInt(size), count);
    const length = Number(new DataView(exports.memory.buffer).getBigUint64(Number(count), true));
    if (status !== 70 || size > 1 << 26) {
      return { status, text: new TextDecoder().decode(new Uint8Array(exports.memory.buffer, Number(out), length)) };
    }
  }
}

/** Returns the columns and the rows of the rights of a table. A row is known by its type and its number. */
function rightsOf(text) {
  const columns = [], rows = [], seen = {};
  for (const [kind, ...fields] of text.split("\n").map((line) => line.split("\t"))) {
    if (kind === "column") {
      columns.push({ name: fields[0], key: fields[1], peers: [] });
    } else if (kind === "peer") {
      columns.find((it) => it.name === fields[0]).peers.push(fields[1]);
    } else if (kind === "service") {
      rows.push({ service: fields[0] });
    } else if (kind === "row") {
      const [handle, type, length, value, ...cells] = fields;
      seen[type] = (seen[type] ?? 0) + 1;
      rows.push({ handle, type, length, value, cells, id: `${type} ${seen[type]}` });
    }
  }
  return { columns, rows };
}

function element(name, text, values) {
  const made = Object.assign(document.createElement(name), values);
  made.append(text ?? "");
  return made;
}

/** Returns a value as a text if it is plain, else in hexadecimal; cut if it is long. */
function shownValue(value) {
  const text = (value.match(/../g) ?? []).map((it) => String.fromCharCode(parseInt(it, 16))).join("");
  const whole = value === "" ? "empty" : /^[ -~]{3,}$/.test(text) ? `"${text}"` : value;
  return whole.length > 24 ? `${whole.slice(0, 22)}..` : whole;
}

/** Returns the words of a cell, for who hears the page. */
function wordsOf(cell) {
  const [, always, once] = cell.match(/^(\w*)(?:\((\w+)\))?$/) ?? [];
  const words = (letters) => [...(letters ?? "")].map((it) => LETTERS[it]).join(", ");
  return [words(always), once && `once authorized: ${words(once)}`].filter(Boolean).join("; ") || "nothing";
}

function cellOf(cell, before) {
  const made = element("td", null, { className: "cell", title: wordsOf(cell) });
  made.append(before === undefined || before === cell ? cell : element("mark", `${cell}, was ${before}`));
  return made;
}

/** Returns the cell that a row had when the comparison began, for the same kind of key. */
function cellBefore(row, key) {
  if (base === undefined) {
    return undefined;
  }
  const column = base.rights.columns.findIndex((it) => it.key === key);
  const old = base.rights.rows.find((it) => it.id === row.id);
  return column < 0 ? undefined : (old?.cells[column] ?? ".");
}

function showMatrix({ columns, rows }) {
  const head = element("tr");
  head.append(...["handle", "type", "size", "at first"].map((it) => element("th", it, { scope: "col" })));
  head.append(...columns.map((it) => element("th", it.name, { scope: "col", className: "cell", title: it.key })));
  const body = rows.map((row) => {
    const made = element("tr");
    if (row.service !== undefined) {
      made.append(element("th", row.service, { colSpan: 4 + columns.length, scope: "colgroup" }));
      return made;
    }
    made.append(element("td", row.handle), element("th", row.type, { scope: "row" }));
    made.append(element("td", row.length), element("td", shownValue(row.value), { title: row.value }));
    made.append(...columns.map((it, index) => cellOf(row.cells[index], cellBefore(row, it.key))));
    return made;
  });
  at("matrix").replaceChildren(head, ...body);
  at("columns").replaceChildren(
    ...columns.flatMap((it) => [element("dt", it.name), element("dd", [it.key, ...it.peers].join("; "))]),
  );
}

/** Shows a fault at the field of its file, and returns true if there is none. */
function showFault({ status, text }) {
  const line = status === 0 || status === 3 ? "" : text.trimEnd().split("\n").pop();
  for (const file of FILES) {
    const isHere = line.startsWith(`${file}:`) || (file === "script" && line !== "" && !/^(table|keys):/.test(line));
    at(`${file}-fault`).textContent = isHere ? line : "";
    at(file).setAttribute("aria-invalid", isHere);
  }
  return line === "";
}

function answer() {
  const [table, keys, script] = FILES.map((it) => at(it).value);
  const data = call("page_rights", table, keys);
  at("answered").classList.toggle("old", data.status !== 0);
  if (!showFault(data)) {
    return;
  }
  showMatrix(rightsOf(data.text));
  const shown = call("page_show", table, keys).text.split("Look twice:\n")[1] ?? "Nothing.\n";
  at("findings").replaceChildren(...shown.trimEnd().split("\n").map((it) => element("li", it.trim())));
  at("since").hidden = base === undefined;
  if (base !== undefined) {
    at("changes").textContent = call("page_compare", base.table, table, keys).text.split("\n\nr read")[0];
  }
  const ran = call("page_run", table, keys, script);
  showFault(ran);
  at("transcript").textContent = call("page_words", table, ran.text).text;
}

/** Answers for the files as they are now. */
function update() {
  try {
    answer();
  } catch (error) {
    at("answered").classList.add("old");
    at("shared").textContent = `There is no answer: ${error.message}`;
  }
}

function fill(files) {
  FILES.forEach((it) => (at(it).value = files[it] ?? ""));
  update();
}

/** What a line of a key file may be in a link, by its name. */
const KEY_VALUES = new Map([
  ["address", /^"[0-9a-f:]{17}"$/i], ["kind", /^"(public|random)"$/], ["rand", /^"[0-9a-f]{16}"$/i], ["ediv", /^\d{1,5}$/],
  ["size", /^\d{1,2}$/], ["authenticated", /^(true|false)$/], ["secure", /^(true|false)$/],
]);

/**
 * Returns the entries of a key file for a link, without comments, and with zeros for each key. Returns undefined if a
 * line has any other form: nobody knows then where a key is.
 */
function withoutKeys(text) {
  let made = "";
  for (const line of text.split(/\r?\n/)) {
    const bare = line.replace(/^\s+|\s*(#.*)?$/g, "");
    const [, name, value] = /^(\w+)\s*=\s*("[^"]*"|\w+)$/.exec(bare) ?? [];
    if (/^\[\[\s*key\s*\]\]$/.test(bare)) {
      made += "[[key]]\n";
    } else if (name === "ltk" && /^"[0-9a-f]{32}"$/i.test(value)) {
      made += `ltk = "${"0".repeat(32)}"\n`;
    } else if (KEY_VALUES.get(name)?.test(value)) {
      made += `${name} = ${value}\n`;
    } else if (bare !== "") {
      return undefined;
    }
  }
  return (made.match(/[0-9a-f]{24,}/gi) ?? []).some((it) => /[^0]/.test(it)) ? undefined : made;
}

/** Tells whether a text has a key: one of this key file, or an entry that was put into the wrong field. */
function hasKey(text, keys) {
  const known = (keys.match(/[0-9a-f]{32}/gi) ?? []).filter((it) => /[^0]/.test(it));
  return /\bltk\b/.test(text) || known.some((it) => text.toLowerCase().includes(it.toLowerCase()));
}

/** Returns octets in base64. A call has space for some of them only. */
function base64(octets) {
  let text = "";
  for (let at = 0; at < octets.length; at += 1 << 15) {
    text += String.fromCharCode(...octets.subarray(at, at + (1 << 15)));
  }
  return btoa(text);
}

/** Puts the files into the address, without the keys themselves. */
async function share() {
  const files = Object.fromEntries(FILES.map((it) => [it, at(it).value]));
  if (hasKey(files.table + files.script, files.keys)) {
    at("shared").textContent = "No link is made: the table or the script has a key, or the word ltk.";
    return;
  }
  const isAccepted = call("page_rights", files.table, files.keys).status === 0;
  files.keys = isAccepted ? withoutKeys(files.keys) : undefined;
  try {
    const stream = new Blob([JSON.stringify(files)]).stream().pipeThrough(new CompressionStream("deflate-raw"));
    const octets = new Uint8Array(await new Response(stream).arrayBuffer());
    history.replaceState(null, "", `#${encodeURIComponent(base64(octets))}`);
  } catch (error) {
    at("shared").textContent = `The link cannot be made: ${error.message}`;
    return;
  }
  at("shared").textContent = files.keys === undefined
    ? "The address of this page holds the table and the script. The keys are not in it: a file is refused, or a line of " +
      "the keys is neither a comment nor one plain value, so that a key could be anywhere."
    : "The address of this page holds the table, the keys with zeros in place of each ltk, and the script.";
}

/** Shows the files of the address, if it holds some. Returns whether it does. */
async function showAddress() {
  const hash = location.hash;
  let files;
  try {
    const octets = await unpacked(decodeURIComponent(hash.slice(1)), "deflate-raw");
    files = JSON.parse(new TextDecoder().decode(octets));
  } catch {
    files = undefined;
  }
  if (Object(files) !== files || FILES.some((it) => typeof (files[it] ?? "") !== "string")) {
    at("shared").textContent = "The address holds no files that can be read.";
    return false;
  }
  // The address may be another one meanwhile.
  if (hash === location.hash) {
    at("shared").textContent = "";
    fill(files);
  }
  return true;
}

async function begin() {
  compiled = await WebAssembly.compile(await unpacked(at("module").textContent, "gzip"));
  at("example").append(...Object.keys(EXAMPLES).map((it) => element("option", it)));
  at("example").addEventListener("change", () => fill(EXAMPLES[at("example").value]));
  FILES.forEach((it) => at(it).addEventListener("input", () => {
    // The address does not hold the files as they are now.
    at("shared").textContent = "";
    update();
  }));
  at("share").addEventListener("click", share);
  at("begin").addEventListener("click", () => {
    const data = call("page_rights", at("table").value, at("keys").value);
    base = data.status === 0 ? { table: at("table").value, rights: rightsOf(data.text) } : undefined;
    update();
  });
  addEventListener("hashchange", showAddress);
  at("shared").textContent = "";
  if (!location.hash || !(await showAddress())) {
    fill(Object.values(EXAMPLES)[0]);
  }
}

begin().catch((error) => {
  at("shared").textContent = `The page cannot run here, or is not whole: ${error.message}`;
});
