/*
 * The page of a desk: a clerk keys records, and a steward publishes what they are repaired by.
 *
 * The desk takes one request for each connection, and requests run one after another here, in the order in which they
 * were asked for. A write has the number after that of its caller's last accepted one. Where no reply comes, the same
 * number and the same body are sent again: the desk does a repeated write once, and answers it as the first time.
 *
 * Nothing is kept in the browser but the clerk's chosen name. Texts get into the page as text, never as markup.
 *
 * In this order: words for refusals, requests, elements, the clerk, the session, publishing, what is published, start.
 */
"use strict";

// ---------------------------------------------------------------------------------------------------------------------
// Words for refusals
// ---------------------------------------------------------------------------------------------------------------------

const NAME_FORM = "a small letter, and then small letters, digits or _, at most 32 of them";

/** What the desk says where something would pass a limit, by `which`. */
const LIMITS = {
  clerks: (most) => `The desk has ${most} clerks already, and takes no more.`,
  schemas: (most) => `The desk has ${most} versions of schemas already, and keeps no more. Begin another desk.`,
  masters: (most) => `The desk has ${most} versions of masters already, and keeps no more. Begin another desk.`,
  master_cells: (most) => `The masters of the desk may have ${most} cells, and would have more. Leave out rows.`,
  rulebooks: (most) => `The desk has ${most} versions of rulebooks already, and keeps no more. Begin another desk.`,
  edition_masters: (most) => `An edition has at most ${most} masters. Leave some out.`,
  editions: (most) => `The desk has ${most} versions of editions already, and keeps no more. Begin another desk.`,
  region_rows: (most) => `A region has at most ${most} rows. Leave some out.`,
  regions: (most) => `An edition has at most ${most} regions. Its next version begins with none.`,
  active_sessions: (most) => `You may have ${most} active sessions, and would have more. Commit or abandon some first.`,
  sessions: (most) => `You may have ${most} sessions, and would have more. Go on under another name.`,
  bytes: (most) => `The texts of your sessions and records may have ${most} bytes. Go on under another name.`,
  batch_rows: (most) => `A batch has at most ${most} rows. Send the sheet in parts.`,
  batches: (most) => `You may have ${most} batches, and would have more. Go on under another name.`,
};

const RULE_EXAMPLE = "A rule reads: rule town from post: zip = code -> city = town;";

/** What is wrong with a text, by its reader and code, from the two numbers of its place. */
const BAD_TEXTS = {
  "schema 1": () => "The text is no TOML.",
  "schema 2": (key) => `The key ${schemaKey(key)} is missing.`,
  "schema 3": (key) => `The key ${schemaKey(key)} has a value of another kind: name is a text, and attributes a list.`,
  "schema 4": (place) => (place === 0 ? `The name of the schema is to be ${NAME_FORM}.`
    : `Attribute ${place} is no word: take a letter or _, and then letters, digits or _, at most 32 of them.`),
  "schema 5": (place) => `Attribute ${place} equals an earlier one.`,
  "schema 6": (count) => `A schema has 1 to 48 attributes, and this one has ${count}.`,
  "schema 7": () => "There is another key than name and attributes.",
  "sheet 1": (row) => `${sheetRow(row)} is not UTF-8. Save the sheet as UTF-8.`,
  "sheet 2": () => "The sheet is empty. Its first line names the columns.",
  "sheet 3": (column) => `Column ${column} has no name, or one that is too long.`,
  "sheet 4": (column) => `Column ${column} equals an earlier one.`,
  "sheet 5": (row) => `Row ${row} has not as many fields as the header.`,
  "sheet 6": (row, column) => `Row ${row} has more than 200 bytes in column ${column}.`,
  "sheet 7": () => "The sheet has more than 20000 rows.",
  "sheet 8": () => "The sheet has more than 48 columns.",
  "rules 1": (line, column) => `${place(line, column)} something can not stand there. ${RULE_EXAMPLE}`,
  "rules 2": (line, column) => `${place(line, column)} the schema has no such attribute.`,
  "rules 3": (line, column) => `${place(line, column)} the rule looks this attribute up, and can not fix it too.`,
  "rules 4": (line, column) => `${place(line, column)} the rule fixes this attribute, and can not ask for it too.`,
  "rules 5": (line, column) => `${place(line, column)} this attribute stands twice in the rule.`,
  "rules 6": (line, column) => `${place(line, column)} an earlier rule has this name.`,
  "rules 7": (line, column) => `${place(line, column)} there are too many rules, keys, conditions or texts.`,
  "rules 8": (line, column) => `${place(line, column)} this text has more than 200 bytes.`,
  "bind 9": (rule) => `Rule ${rule} looks into a master that the edition does not have.`,
  "bind 10": (rule, key) => (key === 0 ? `Rule ${rule} copies a column that its master does not have.`
    : `Rule ${rule} looks for a column in its key ${key} that its master does not have.`),
  "index 1": (count) => `The rules need ${count} entries in the index, and may have 2000000. Leave out rules or rows.`,
};

function schemaKey(key) {
  return key === 1 ? "name" : "attributes";
}

function sheetRow(row) {
  return row === 0 ? "The header" : `Row ${row}`;
}

function place(line, column) {
  return `Line ${line}, column ${column}:`;
}

/** Why the desk did not read the body of a request. */
const JSON_FAULTS = {
  not_json: () => "The text is no JSON.",
  wrong_kind: (key) => (key === "" ? "The JSON is to be an object." : `The key ${key} has a value of another form.`),
  unknown: (key) => `The key ${key} has no meaning here. Take it out.`,
  missing: (key) => `The key ${key} is missing.`,
};

const WRITTEN_MEANWHILE = "Someone has written under this name meanwhile, so this was not done. "
  + "Look at what stands, and do it again.";

/** What the desk says by each code of `error`, from what it carries. docs/api.md has all of them. */
const REFUSALS = {
  origin: () => "The desk takes requests of its own page alone. Open it at http://127.0.0.1 or http://localhost.",
  no_route: () => "The desk has nothing at this address. It may be older than this page, or a name has a slash in it.",
  method: () => "The desk takes no such request at this address.",
  length: () => "The desk was not told how long the request is.",
  head: () => "The desk could not read the request.",
  chunked: () => "The request came in pieces, which the desk does not take.",
  body: () => "The file is too long. A master or a region may have 4194304 bytes, a batch 1048576, another 262144.",
  json: (reply) => tableWords(JSON_FAULTS, reply.fault, reply.key),
  unavailable: () => "The desk could not store this. Nothing was changed: try again, and tell who runs the desk.",
  no_memory: () => "The desk has no memory for this. Nothing was changed: try again.",
  no_clerk: () => "No clerk has this name. The steward adds clerks.",
  stale: () => WRITTEN_MEANWHILE,
  gap: () => "The desk knows fewer requests of this name than the page did. This was not done: look, and do it again.",
  reused: () => WRITTEN_MEANWHILE,
  no_such: (reply) => `There is no such ${reply.kind}.`,
  closed: (reply) => `The session is ${reply.stage}, and can not be changed any more.`,
  unknown_attr: (reply) => `The schema has no attribute ${reply.name}.`,
  value_long: (reply) => `The text for ${reply.name} has more than 200 bytes. Shorten it.`,
  not_certain: (reply) => `The record is not certain: ${count(reply.open, "attribute is", "attributes are")} open. `
    + "Confirm what is open, or commit with open cells.",
  in_conflict: () => "The record is in conflict. Choose between the texts first.",
  not_confirmed: (reply) => `${reply.name} is not confirmed.`,
  limit: (reply) => tableWords(LIMITS, reply.which, reply.most),
  bad_text: (reply) => tableWords(BAD_TEXTS, `${reply.reader} ${reply.code}`, ...reply.at),
  twice: (reply) => `${reply.name} stands twice. Name it once.`,
  taken: (reply) => `The name ${reply.name} is taken.`,
  bad_name: (reply) => `${decoded(reply.name)} is no name: take ${NAME_FORM}.`,
  row_width: (reply) => `Row ${reply.row} of the region has not one text for each attribute.`,
  not_fixed: (reply) => `No rule fixes ${reply.name}.`,
  no_column: (reply) => `The master has no column ${reply.name}.`,
  not_newer: (reply) => `The record is on version ${reply.version} already.`,
};

/** The sentence that a table has for a key, or one that says that it has none. */
function tableWords(words, key, ...values) {
  const unknown = (code) => `The desk gave a reason that this page does not know: ${code}.`;
  return Object.hasOwn(words, key) ? words[key](...values) : unknown(key);
}

/** A refusal in words: those of the desk where it says some. */
function refusalWords(refusal) {
  const { reply, status, repeated } = refusal;
  if (typeof reply !== "object" || reply === null || !("error" in reply)) {
    return `The desk's address answered with status ${status}, and not as the desk does.`;
  }
  if (reply.error === "stale" && repeated) {
    return "A reply was lost, and someone has written under this name since. Whether this was done can not be told: "
      + "look at what stands before you do it again.";
  }
  return typeof reply.says === "string" ? capital(reply.says) : tableWords(REFUSALS, reply.error, reply);
}

// ---------------------------------------------------------------------------------------------------------------------
// Requests
// ---------------------------------------------------------------------------------------------------------------------

/** An answer that is a refusal; `repeated` says whether the request was sent more than once. */
class Refusal extends Error {
  constructor(status, reply, repeated) {
    super(`refused with status ${status}`);
    Object.assign(this, { status, reply, repeated });
  }
}

/** What is wrong with a file, in words, where the page reads it itself. */
class Slip extends Error {}

/** How long a reply is waited for, and the pauses before a request is sent again, in milliseconds. */
const PATIENCE = 120000;
const PAUSES = [300, 1000, 3000];

/** What was published, and each caller with the start of its targets and the number of its last accepted write. */
const desk = {
  published: { clerks: [], editions: [], masters: [], rulebooks: [], schemas: [], last: 0 },
  steward: { root: "/steward", last: 0 },
  clerks: new Map(),
  lasting: new Map(),
};

/** Sends a request once. Answers null where no whole reply came. */
async function sendOnce(method, target, body) {
  try {
    const response = await fetch(target, { method, body, cache: "no-store", signal: AbortSignal.timeout(PATIENCE) });
    return { status: response.status, type: response.headers.get("Content-Type") || "", text: await response.text() };
  } catch {
    return null;
  }
}

/** Sends a request until a reply comes, always the same one, and answers what the reply says. */
async function send(method, target, body) {
  for (let sent = 1; ; sent += 1) {
    const answer = await sendOnce(method, target, body);
    if (answer !== null) {
      return readAnswer(answer, sent > 1);
    }
    await beforeNext(sent);
  }
}

/** Waits before a request is sent again: a while at first, and then until the user asks for it. */
async function beforeNext(sent) {
  if (sent <= PAUSES.length) {
    say("No answer came. The same request is sent again.");
    await new Promise((done) => setTimeout(done, PAUSES[sent - 1]));
  } else {
    await new Promise((done) => {
      refuse("The desk does not answer. What was asked last may be done or not; it is not done twice.",
        button("Ask again", () => { refuse(""); done(); }));
    });
  }
}

/** What an answer says: a value where it is JSON, else its text. Throws a refusal. */
function readAnswer({ status, type, text }, repeated) {
  const reply = type.includes("json") ? JSON.parse(text) : text;
  if (status >= 400) {
    throw new Refusal(status, reply, repeated);
  }
  return reply;
}

/** Asks for something that changes nothing. */
function look(target) {
  return send("GET", target);
}

/** Sends a write of a caller under its next number. Where the desk tells another last number, that is taken. */
async function write(caller, rest, body) {
  const number = caller.last + 1;
  try {
    const reply = await send("POST", `${caller.root}/${number}/${rest}`, body);
    caller.last = number;
    return reply;
  } catch (error) {
    if (error instanceof Refusal && error.reply && Number.isInteger(error.reply.last)) {
      caller.last = error.reply.last;
    }
    throw error;
  }
}

/** Sends a write of the chosen clerk whose body is an object. */
function clerkWrite(rest, body) {
  return write(chosenClerk(), rest, JSON.stringify(body));
}

/** Asks what is published, and takes the number of each caller from it. */
async function loadPublished() {
  desk.published = await look("/desk/published");
  desk.steward.last = desk.published.last;
  desk.clerks = new Map(desk.published.clerks.map(([name, last]) => [name, { name, root: `/do/${name}`, last }]));
  fillChoices();
}

/** Asks once for something that never changes, as a row of a version of a master. */
async function lookOnce(target) {
  if (!desk.lasting.has(target)) {
    desk.lasting.set(target, await look(target));
  }
  return desk.lasting.get(target);
}

/** Actions run one after another. */
let lastAction = Promise.resolve();

/** Runs an action of the user after those before it. A refusal is told in words, in `result` where one is given. */
function act(task, result) {
  lastAction = lastAction.then(async () => {
    const hadFocus = document.activeElement !== document.body;
    document.body.dataset.busy = "yes";
    say("");
    refuse("");
    try {
      await task();
    } catch (error) {
      tellFault(error, result);
    }
    delete document.body.dataset.busy;
    if (hadFocus) {
      keepFocus();
    }
  });
  return lastAction;
}

function tellFault(error, result) {
  const words = faultWords(error);
  if (result) {
    result.replaceChildren(make("p", { class: "bad" }, words));
  } else {
    refuse(words);
  }
}

function faultWords(error) {
  if (error instanceof Refusal) {
    return refusalWords(error);
  }
  if (error instanceof Slip) {
    return error.message;
  }
  console.error(error);
  return `The page failed: ${error.message}`;
}

// ---------------------------------------------------------------------------------------------------------------------
// Elements
// ---------------------------------------------------------------------------------------------------------------------

function find(id) {
  return document.getElementById(id);
}

/** Makes an element. Texts among its children stay texts; a property that is false or null is left out. */
function make(tag, properties, ...children) {
  const element = document.createElement(tag);
  for (const [name, value] of Object.entries(properties)) {
    if (typeof value === "function") {
      element[name] = value;
    } else if (value !== false && value !== null) {
      element.setAttribute(name, value === true ? "" : value);
    }
  }
  element.append(...children.filter((child) => child !== null));
  return element;
}

function button(words, onclick, properties = {}) {
  return make("button", { type: "button", onclick, ...properties }, words);
}

function link(words, target, properties = {}) {
  return make("a", { href: target, ...properties }, words);
}

/** A table with a caption. Where there is no room, each cell shows the name of its column. */
function table(caption, columns, rows) {
  const heads = columns.map((column) => make("th", { scope: "col", role: "columnheader" }, column));
  const lines = rows.map((cells) => make("tr", { role: "row" },
    ...cells.map((cell, at) => make("td", { role: "cell", "data-column": columns[at] }, cell))));
  return make("table", { class: columns.length > 8 ? "many" : "wide", role: "table" },
    make("caption", {}, caption),
    make("thead", { role: "rowgroup" }, make("tr", { role: "row" }, ...heads)),
    make("tbody", { role: "rowgroup" }, ...lines));
}

/** Tells what was done. */
function say(words) {
  find("said").textContent = words;
}

/** Tells what was refused, with what can be done about it. */
function refuse(words, ...more) {
  find("refused").replaceChildren(...(words === "" ? [] : [make("p", {}, words), ...more]));
}

function capital(words) {
  return words.charAt(0).toUpperCase() + words.slice(1);
}

function count(number, one, many) {
  return `${number} ${number === 1 ? one : many}`;
}

/** A part of a target as it was typed. */
function decoded(part) {
  try {
    return decodeURIComponent(part);
  } catch {
    return part;
  }
}

/** Names in a row, as `zip, city and region`. */
function listed(names) {
  return names.length < 2 ? names.join("") : `${names.slice(0, -1).join(", ")} and ${names[names.length - 1]}`;
}

/** Names in a row; of many the first six, and how many more there are. */
function listedSome(names) {
  const most = 6;
  return listed(names.length <= most + 1 ? names : [...names.slice(0, most), `${names.length - most} more`]);
}

/** A text as it is shown in a sentence. */
function shown(text) {
  return text === "" ? "a blank" : text;
}

/** The most bytes of a file, by what it is: so much the desk takes. */
const MOST = { sheet: 4194304, batch: 1048576, text: 262144 };

/** The chosen file as it stands now, so that a request which is sent again has the same bytes. */
async function bytesOf(input, most) {
  const [file] = input.files;
  if (file.size > most) {
    throw new Slip(`${file.name} has ${file.size} bytes, and may have ${most}.`);
  }
  return file.arrayBuffer();
}

/** The text of a file that is to be UTF-8. */
function textOf(bytes) {
  try {
    return new TextDecoder("utf-8", { fatal: true }).decode(bytes);
  } catch {
    throw new Slip("The file is not UTF-8. Save it as UTF-8.");
  }
}

/** The fields of a sheet (RFC 4180), row by row. A line without a byte is no row. */
function readSheet(text) {
  const pattern = /(?:"((?:[^"]|"")*)"|([^",\r\n]*))(,|\r?\n|$)/gy;
  const rows = [];
  let row = [];
  while (pattern.lastIndex < text.length || row.length > 0) {
    const match = pattern.exec(text);
    if (match === null) {
      throw new Slip(`Row ${rows.length} of the sheet has a quote that does not belong there.`);
    }
    const [, quoted, plain, end] = match;
    if (row.length > 0 || end === "," || plain !== "") {
      row.push(quoted === undefined ? plain : quoted.replaceAll('""', '"'));
    }
    if (end !== "," && row.length > 0) {
      rows.push(row);
      row = [];
    }
  }
  return rows;
}

/** A report as a table: a line for whose it is, the columns, a line for each version of an edition, and a total. */
function reportTable(text) {
  const lines = text.trimEnd().split("\n").map((line) => line.split(" "));
  const [owner, [, , ...columns], ...rest] = lines;
  const [, total] = rest.pop();
  const rows = rest.map(([name, version, ...numbers]) => [`${name} ${version}`, ...numbers]);
  return table(`${capital(owner.join(" "))}: ${count(Number(total), "session", "sessions")}`,
    ["edition", ...columns], rows);
}

/** Where a control that had the focus is gone or hidden, the heading of the view gets it. */
function keepFocus() {
  const focused = document.activeElement;
  if (focused === null || focused === document.body || focused.getClientRects().length === 0) {
    focusHeading();
  }
}

function focusHeading() {
  const heading = document.querySelector(".view:not([hidden]) h2");
  if (heading !== null) {
    heading.focus();
  }
}

/** Puts choices into a select, each a value with its words, and keeps what was chosen. */
function fillSelect(select, choices, chosen = select.value) {
  select.replaceChildren(...choices.map(([value, words]) => make("option", { value }, words)));
  if (choices.some(([value]) => value === chosen)) {
    select.value = chosen;
  }
}

/** Versions as choices: `post/2`, shown as `post 2`. */
function choicesOf(versions) {
  return versions.map(([name, version]) => [`${name}/${version}`, `${name} ${version}`]);
}

/** What was published as choices, the newest first. */
function newestFirst(published) {
  return choicesOf([...published].reverse());
}

/** The newest version of each name, in the order of their first versions. */
function newest(published) {
  return new Map(published);
}

// ---------------------------------------------------------------------------------------------------------------------
// The clerk
// ---------------------------------------------------------------------------------------------------------------------

const NAME_KEPT = "fixdesk.clerk";

/** The name that was chosen last, where the browser keeps one. */
function keptName() {
  try {
    return localStorage.getItem(NAME_KEPT) || "";
  } catch {
    return "";
  }
}

function keepName(name) {
  try {
    localStorage.setItem(NAME_KEPT, name);
  } catch {
    // The browser keeps nothing, so the name is chosen anew next time.
  }
}

function chosenClerk() {
  const clerk = desk.clerks.get(find("clerk-name").value);
  if (clerk === undefined) {
    throw new Refusal(404, { error: "no_clerk" }, false);
  }
  return clerk;
}

/** The target of a look of the chosen clerk. */
function see(rest) {
  return look(`/see/${chosenClerk().name}/${rest}`);
}

/** Fills every select that has names of what is published. */
function fillChoices() {
  const { clerks, editions, rulebooks, schemas } = desk.published;
  fillSelect(find("clerk-name"), clerks.map(([name]) => [name, name]), find("clerk-name").value || keptName());
  fillSelect(find("edition-name"), [...newest(editions)].map(([name, version]) => [name, `${name} ${version}`]));
  fillSelect(find("rulebook-schema"), newestFirst(schemas));
  fillSelect(find("edition-rulebook"), newestFirst(rulebooks));
  fillSelect(find("region-edition"), newestFirst(editions));
  fillSelect(find("derived-edition"), newestFirst(editions));
  fillMasters();
}

async function showClerk() {
  showView("clerk", "Clerk");
  await loadPublished();
  find("clerk-report").replaceChildren();
  showRecords();
  if (desk.clerks.size === 0) {
    find("sessions").replaceChildren();
    say("There is no clerk yet. The steward adds clerks.");
  } else {
    await listSessions(Number(find("sessions-from").value) || 1);
  }
}

async function listSessions(from) {
  const page = await see(`list/${from}`);
  const wanted = page.sessions.filter(([, , , stage]) => stage === "active" || !find("sessions-active").checked);
  const rows = wanted.map(([number, name, version, stage]) => [
    link(`Session ${number}`, `#session/${number}`), `${name} ${version}`, stage,
  ]);
  const list = rows.length === 0 ? make("p", {}, "There are none here.")
    : table(`Sessions of ${chosenClerk().name}`, ["Session", "Edition", "Stage"], rows);
  find("sessions").replaceChildren(list, page.next === null ? "" : button(`From session ${page.next} on`, () => {
    find("sessions-from").value = page.next;
    act(() => listSessions(page.next));
  }));
}

/** A link for the records of each version of an edition. */
function showRecords() {
  const clerk = desk.clerks.get(find("clerk-name").value);
  const items = clerk === undefined ? [] : desk.published.editions.map(([name, version]) => make("li", {},
    link(`Records of ${name} ${version}`, `/see/${clerk.name}/records/${name}/${version}`,
      { download: `records-${clerk.name}-${name}-${version}.csv` })));
  find("records").replaceChildren(items.length === 0 ? "" : make("ul", {}, ...items));
}

/** The name of the edition that records are entered over. */
function chosenName() {
  const name = find("edition-name").value;
  if (name === "") {
    throw new Slip("No edition is published yet. The steward publishes one.");
  }
  return name;
}

async function enterBatch() {
  const batch = await write(chosenClerk(), `batch/${chosenName()}`, await bytesOf(find("batch-file"), MOST.batch));
  find("batch-form").reset();
  find("sessions-from").value = batch.first;
  await listSessions(batch.first);
  say(`Batch ${batch.batch} has ${count(batch.rows, "record", "records")}: ${verdicts(batch)}. `
    + `The list begins with its first session, ${batch.first}.`);
}

/** Enters an empty record over the newest version of an edition, and shows it. */
async function enterRecord(edition) {
  const opened = await clerkWrite(`open/${edition}`, { cells: {}, confirmed: [] });
  history.pushState(null, "", `#session/${opened.session}`);
  showView("session", `Session ${opened.session}`);
  record.view = null;
  await showSession(opened);
  focusFirst(opened);
}

function startClerk() {
  find("clerk-name").onchange = () => {
    keepName(find("clerk-name").value);
    act(showClerk);
  };
  onSubmit("who", () => enterRecord(chosenName()));
  onSubmit("sessions-form", () => listSessions(Number(find("sessions-from").value)));
  onSubmit("batch-form", enterBatch);
  find("clerk-report-show").onclick = () => act(async () => {
    find("clerk-report").replaceChildren(reportTable(await see("report")));
    say("The report stands below the button.");
  });
}

/** What happens where a form is submitted: an action, and never a request of the form's own. */
function onSubmit(id, task) {
  find(id).onsubmit = (event) => {
    event.preventDefault();
    act(task);
  };
}

// ---------------------------------------------------------------------------------------------------------------------
// The session
// ---------------------------------------------------------------------------------------------------------------------

/** The session that is shown: the desk's last view of it, and the elements of each attribute by its name. */
const record = { view: null, rows: new Map() };

/** The parts of a cell as the desk prints it. */
function cellOf([name, text, state, rule, master, row]) {
  return { name, text, state, rule, master, row };
}

function cellsOf(view) {
  return view.cells.map(cellOf);
}

function isActive(view) {
  return view.stage === "active";
}

async function showSessionNumber(number) {
  showView("session", `Session ${number}`);
  find("session-body").hidden = true;
  record.view = null;
  await loadPublished();
  await showSession(await see(`sessions/${number}`));
}

/** Runs an action on the session that is shown, where it is still shown when those before it are done. */
function actOnSession(task) {
  const { session } = record.view;
  return act(async () => {
    if (record.view !== null && record.view.session === session) {
      await task(session);
    }
  });
}

/** Shows a session, asks what else there is to know about it, and says in a sentence how it stands. */
async function showSession(view) {
  const before = record.view;
  if (before === null || before.session !== view.session) {
    buildRows(view, {});
  } else if (before.version !== view.version) {
    buildRows(view, typedCells(drafts()));
  }
  record.view = view;
  showHead(view);
  cellsOf(view).forEach((cell) => showCell(cell, view));
  showDrafts();
  const more = await lookFurther(view);
  showNotes(view, more);
  showConflict(view, more.choices);
  await showNext(view, more.suggestion);
  showCarry(view);
  say(stateWords(view, more));
}

/** What the state of a session leaves to be asked: what a conflict is about, what blocks, what to confirm next. */
async function lookFurther(view) {
  const more = { choices: [], dissent: null, blocked: new Map(), suggestion: null };
  if (view.answer === "conflict" || view.dissent !== null) {
    Object.assign(more, await see(`choices/${view.session}`));
  }
  if (view.answer === "fix" && !view.certain) {
    more.blocked = new Map((await see(`blocked/${view.session}`)).blocked);
    more.suggestion = isActive(view) ? await see(`suggest/${view.session}`) : null;
  }
  return more;
}

function showHead(view) {
  const { session, edition, version } = view;
  find("session-title").textContent = `Session ${session} of ${chosenClerk().name}: ${edition} ${version}`;
  find("session-state").textContent = headWords(view);
  find("session-body").hidden = false;
  for (const id of ["keys-help", "session-actions"]) {
    find(id).hidden = !isActive(view);
  }
  find("abandon-sure").hidden = true;
  find("commit-partial").hidden = view.answer === "conflict" || view.certain;
}

function headWords(view) {
  const open = cellsOf(view).filter((cell) => cell.state === "open").length;
  const answer = view.answer === "conflict" ? "The record is in conflict, and nothing is fixed."
    : view.certain ? "The record is certain: each attribute is confirmed or fixed."
      : `${count(open, "attribute is", "attributes are")} open.`;
  return isActive(view) ? answer : `The session is ${view.stage}. ${answer}`;
}

/** What is said after an action: what is fixed, open or in conflict. */
function stateWords(view, more) {
  const fixed = fixedTexts(view);
  const open = cellsOf(view).filter((cell) => cell.state === "open").map((cell) => cell.name);
  const parts = [];
  if (view.answer === "conflict") {
    parts.push(`Conflict: choose a text for ${listedSome(more.choices.map(([name]) => name))}.`);
  } else {
    parts.push(fixed.length > 0 ? `Fixed: ${listedSome(fixed)}.` : "Nothing is fixed.");
    parts.push(open.length > 0 ? `Open: ${listedSome(open)}.` : "The record is certain.");
  }
  if (more.dissent !== null) {
    parts.push(`Warning about ${more.dissent[0]}.`);
  }
  return isActive(view) ? parts.join(" ") : `The session is ${view.stage}.`;
}

/** Makes the rows of a record, an input and a tick for each attribute. What was typed into some of them stays. */
function buildRows(view, typed) {
  record.rows = new Map(cellsOf(view).map(({ name }) => [name, buildRow(name)]));
  for (const [name, row] of record.rows) {
    row.input.value = Object.hasOwn(typed, name) ? typed[name] : "";
  }
  find("cells").replaceChildren(...[...record.rows.values()].map((row) => row.element));
}

function buildRow(name) {
  const row = {
    input: make("input", { id: `cell-${name}`, "aria-describedby": `note-${name}`, spellcheck: "false" }),
    tick: make("input", { id: `tick-${name}`, type: "checkbox", "aria-label": `${name} confirmed` }),
    words: make("div", { id: `note-${name}` }),
    typed: make("p", { class: "typed" }, "Changed: Enter confirms it, Escape takes it back."),
    ask: button("Why?", () => toggleWhy(name), { class: "quiet", id: `ask-${name}`, "aria-label": `Why? ${name}` }),
    more: make("div", {}),
    why: make("div", { class: "why panel", id: `why-${name}`, role: "group", "aria-label": `Why ${name} is fixed` }),
    text: "",
  };
  row.ask.setAttribute("aria-controls", row.why.id);
  row.tickLabel = make("label", { class: "tick" }, row.tick, make("span", { "aria-hidden": "true" }, "confirmed"));
  row.element = make("div", { class: "cell open" }, make("label", { for: `cell-${name}` }, name), row.input,
    row.tickLabel, make("div", { class: "note" }, row.typed, row.words, row.ask, row.more), row.why);
  row.input.onkeydown = (event) => onCellKey(event, name);
  row.input.oninput = showDrafts;
  row.tick.onchange = () => (row.tick.checked ? confirmTyped([name]) : withdraw(name));
  return row;
}

/** Enter confirms, Escape takes back what was typed, and the arrows go to the cell above or below. */
function onCellKey(event, name) {
  const row = record.rows.get(name);
  const names = [...record.rows.keys()];
  if (event.key === "Enter") {
    event.preventDefault();
    confirmTyped([name]);
  } else if (event.key === "Escape") {
    row.input.value = row.text;
    showDrafts();
  } else if (event.key === "ArrowDown" || event.key === "ArrowUp") {
    const next = names[names.indexOf(name) + (event.key === "ArrowDown" ? 1 : -1)];
    if (next !== undefined) {
      event.preventDefault();
      focusCell(next);
    }
  }
}

/** Shows a cell as the desk has it. What was typed and not confirmed stays, but where a fix takes its place. */
function showCell(cell, view) {
  const row = record.rows.get(cell.name);
  const isDraft = row.input.value !== row.text;
  const isNewlyFixed = cell.state === "fixed" && cell.text !== row.text && document.activeElement !== row.input;
  if (!isDraft || isNewlyFixed) {
    row.input.value = cell.text;
  }
  row.text = cell.text;
  row.element.className = `cell ${cell.state}`;
  row.input.readOnly = !isActive(view);
  row.tick.checked = cell.state === "confirmed";
  row.tick.disabled = !isActive(view);
  row.tickLabel.hidden = !isActive(view);
  row.ask.hidden = cell.state !== "fixed";
  closeWhy(row);
  row.more.replaceChildren();
  row.words.replaceChildren(stateWord(cell));
}

/** A state has a word and a sign, so that it is not told by a colour alone. */
function stateWord(cell) {
  const signs = { confirmed: "\u2713", fixed: "\u2550", open: "\u25CB" };
  const more = cell.state === "fixed" ? ` by the rule ${cell.rule}, from row ${cell.row} of ${cell.master}`
    : cell.state === "confirmed" && cell.text === "" ? " as a blank" : "";
  return make("p", {}, make("span", { class: "state" },
    make("span", { "aria-hidden": "true" }, `${signs[cell.state]} `), capital(cell.state)), more);
}

/** Puts beside each cell what blocks it, or what dissents from it. */
function showNotes(view, more) {
  for (const [name, rules] of more.blocked) {
    record.rows.get(name).words.append(...blockerLines(rules));
  }
  if (more.dissent !== null) {
    showDissent(view, more.dissent);
  }
}

/** A sentence for each rule that could fix an attribute: what stands in its way. Of many the last are folded away. */
function blockerLines(rules) {
  const most = 4;
  if (rules.length === 0) {
    return [make("p", {}, "No rule fixes this; it can only be confirmed.")];
  }
  const lines = rules.map((rule) => make("p", {}, blockerWords(rule)));
  const folded = lines.splice(most);
  return folded.length === 0 ? lines
    : [...lines, make("details", {}, make("summary", {}, count(folded.length, "more rule", "more rules")), ...folded)];
}

function blockerWords([rule, blocker, what]) {
  const words = {
    unknown: () => `The rule ${rule} waits until ${listed(what)} ${what.length === 1 ? "is" : "are"} known.`,
    pattern: () => `The rule ${rule} asks for another text of ${what}.`,
    no_row: () => `The rule ${rule} finds no row of ${what} that agrees.`,
  };
  return tableWords(words, blocker);
}

/** A warning beside the cell that a rule would have filled otherwise. */
function showDissent(view, [name, text, rule, master, number, other]) {
  const row = record.rows.get(name);
  row.words.append(make("p", { class: "warning" },
    `Warning: here stands ${shown(text)}, but by the rule ${rule} row ${number} of ${master} has ${shown(other)}.`));
  if (isActive(view)) {
    row.more.replaceChildren(button(`Take ${other}`, () => confirmCells({ [name]: other }, name), { class: "quiet" }));
  }
}

/** A conflict as a choice between two columns: the texts where the first and the second order of the rules end. */
function showConflict(view, choices) {
  const panel = find("conflict");
  panel.hidden = view.answer !== "conflict";
  if (panel.hidden) {
    panel.replaceChildren();
    return;
  }
  const rows = choices.map(([name, first, firstStep, second, secondStep]) => [
    name, choice(view, name, first, firstStep), choice(view, name, second, secondStep),
  ]);
  panel.replaceChildren(
    make("p", {}, "The rules can be applied in two orders that end in two records. Choose which text is right."),
    table("What the two orders say", ["Attribute", "First order", "Second order"], rows));
}

/** A text of a conflict with where it is from, and a button that confirms it. */
function choice(view, name, text, step) {
  const from = step === null ? "as it was typed" : `by the rule ${step[0]}, from row ${step[2]} of ${step[1]}`;
  const label = { "aria-label": `Take ${shown(text)} for ${name}, ${from}` };
  const take = button(`Take ${shown(text)}`, () => confirmCells({ [name]: text }, name), label);
  return make("div", {}, make("p", {}, make("strong", {}, shown(text)), `, ${from}`), isActive(view) ? take : null);
}

/** What to confirm next: what is needed, the one that is hoped to gain most first, and rows of regions that fit. */
async function showNext(view, suggestion) {
  const panel = find("next");
  panel.hidden = suggestion === null;
  if (suggestion === null) {
    panel.replaceChildren();
    return;
  }
  const gains = new Map(suggestion.gains);
  const need = [...suggestion.need].sort((one, other) => gains.get(other) - gains.get(one));
  const items = need.map((name) => make("li", {},
    button(name, () => focusCell(name), { class: "quiet", "aria-label": `Go to ${name}` }),
    gainWords(gains.get(name))));
  panel.replaceChildren(make("p", {}, make("strong", {}, "Confirm next:")), make("ul", {}, ...items));
  for (const [region, row] of suggestion.regions.slice(0, 3)) {
    panel.append(offer(await lookOnce(`/desk/regions/${view.edition}/${view.version}/${region}`), row));
  }
}

function gainWords(gain) {
  return gain > 0 ? ` may fix ${count(gain, "more attribute", "more attributes")}` : " is fixed by nothing else";
}

/** A row of a region that fits what is typed: confirming its texts makes the record certain. */
function offer(region, row) {
  const texts = region.rows[row - 1];
  const cells = Object.fromEntries(region.attributes.map((name, at) => [name, texts[at]]));
  const words = listed(region.attributes.map((name) => `${name} ${shown(cells[name])}`));
  const from = `(region ${region.region}, row ${row})`;
  return make("p", {}, `The record is certain once these are confirmed: ${words} ${from}. `,
    button("Confirm these", () => confirmCells(cells, region.attributes[0]), { class: "quiet" }));
}

function focusCell(name) {
  const { input } = record.rows.get(name);
  input.focus();
  input.select();
}

/** The cell to begin with: the first one that is asked for, else the first. */
function focusFirst(view) {
  const asked = find("next").querySelector("li button");
  if (asked !== null) {
    asked.click();
  } else {
    focusCell(cellsOf(view)[0].name);
  }
}

/** The attributes whose cells were typed otherwise than the desk has them. */
function drafts() {
  return [...record.rows].filter(([, row]) => row.input.value !== row.text).map(([name]) => name);
}

function showDrafts() {
  const names = drafts();
  for (const [name, row] of record.rows) {
    row.typed.hidden = !names.includes(name);
  }
  find("drafts").hidden = names.length === 0;
  find("drafts-words").textContent = `Typed and not confirmed yet: ${listedSome(names)}.`;
  find("drafts-tried").textContent = "";
}

function typedCells(names) {
  return Object.fromEntries(names.map((name) => [name, record.rows.get(name).input.value]));
}

function confirmTyped(names) {
  return confirmCells(typedCells(names), null);
}

/** Confirms cells. Where the control that did it may be gone afterwards, the cell `focused` gets the focus. */
function confirmCells(cells, focused) {
  for (const [name, text] of Object.entries(cells)) {
    record.rows.get(name).input.value = text;
  }
  return change("confirm", { cells }, focused);
}

function withdraw(name) {
  return change("withdraw", { names: [name] }, null);
}

/** Keeps texts that are typed without confirming them: they are confirmed, and the confirmation is withdrawn. */
function keepDrafts(names) {
  const cells = typedCells(names);
  return actOnSession(async (session) => {
    try {
      await clerkWrite(`confirm/${session}`, { cells });
      await clerkWrite(`withdraw/${session}`, { names });
    } finally {
      await showSession(await see(`sessions/${session}`));
    }
    focusCell(names[0]);
  });
}

/** Does one change of the session that is shown, and shows what became of it. */
function change(kind, body, focused) {
  return actOnSession(async (session) => {
    try {
      await showSession(await clerkWrite(`${kind}/${session}`, body));
    } catch (error) {
      await showAgain(error);
      throw error;
    }
    if (focused !== null) {
      focusCell(focused);
    }
  });
}

/** After a refusal the ticks are as the desk has them; where another page has written, the session is asked for. */
async function showAgain(error) {
  const elsewhere = error instanceof Refusal && ["stale", "gap", "reused", "closed"].includes(error.reply.error);
  if (elsewhere) {
    await showSession(await see(`sessions/${record.view.session}`));
  } else {
    cellsOf(record.view).forEach(({ name, state }) => { record.rows.get(name).tick.checked = state === "confirmed"; });
  }
}

async function tryDrafts(session) {
  const cells = typedCells(drafts());
  const view = await send("POST", `/see/${chosenClerk().name}/preview/${session}`, JSON.stringify({ cells }));
  const words = `Confirmed so, ${wouldBe(view)}.`;
  find("drafts-tried").textContent = words;
  say(words);
}

function wouldBe(view) {
  if (view.answer === "conflict") {
    return "it would be a conflict";
  }
  const fixed = fixedTexts(view);
  const certain = view.certain ? ", and the record certain" : "";
  return `${fixed.length === 0 ? "nothing" : listedSome(fixed)} would be fixed${certain}`;
}

/** The fixed cells of a view, as `city Edinburgh`. */
function fixedTexts(view) {
  return cellsOf(view).filter((cell) => cell.state === "fixed").map((cell) => `${cell.name} ${shown(cell.text)}`);
}

/** Commits the record. What is typed and neither confirmed nor kept is asked about first. */
async function commit(session, accept) {
  if (drafts().length > 0) {
    const names = capital(listedSome(drafts()));
    refuse(`${names}: typed and not confirmed. Confirm it, keep it unconfirmed, or take it back.`);
    return;
  }
  const kept = await clerkWrite(`commit/${session}`, { accept });
  await showSession(await see(`sessions/${session}`));
  say(`The record was committed as record ${kept.record}, ${kept.certain ? "and is certain" : "with open cells"}.`);
}

/** Opens or closes the explanation of a fixed cell. */
function toggleWhy(name) {
  const row = record.rows.get(name);
  if (!row.why.hidden) {
    closeWhy(row);
    return;
  }
  actOnSession(async () => {
    row.why.replaceChildren(...await explanation(name));
    row.why.hidden = false;
    row.ask.setAttribute("aria-expanded", "true");
    say(row.why.querySelector("p").textContent);
  });
}

function closeWhy(row) {
  row.why.hidden = true;
  row.ask.setAttribute("aria-expanded", "false");
}

/** The steps that a fixed cell rests on, each with its rule and its row. */
async function explanation(name) {
  const { view } = record;
  const { steps, uses } = await see(`explain/${view.session}/${name}`);
  const made = await lookOnce(`/desk/editions/${view.edition}/${view.version}`);
  const items = [];
  for (const [rule, number] of steps) {
    items.push(await stepItem(made, rule, number));
  }
  const by = count(steps.length, "step", "steps");
  return [
    make("p", {}, `${capital(name)} rests on what you confirmed of ${listed(uses)}, by ${by}.`),
    make("ol", {}, ...items),
  ];
}

async function stepItem(made, rule, number) {
  const [, keys, head, master] = made.rules.find(([name]) => name === rule);
  const [, version] = made.masters.find(([name]) => name === master);
  const row = await lookOnce(`/desk/rows/${master}/${version}/${number}`);
  return make("li", {}, `The rule ${rule} looks ${listed(keys)} up in ${master}, and fixes ${head}:`, rowTable(row));
}

function rowTable(row) {
  const columns = row.cells.map(([column]) => column);
  return table(`Row ${row.row} of ${row.master} ${row.version}`, columns, [row.cells.map(([, text]) => text)]);
}

/** Tells of a newer version of the session's edition. */
function showCarry(view) {
  const version = newest(desk.published.editions).get(view.edition);
  find("carry").hidden = !isActive(view) || version === undefined || version <= view.version;
  find("carry-words").textContent = `Version ${version} of ${view.edition} is published, `
    + `and this record is on version ${view.version}.`;
  find("carry-preview").replaceChildren();
  find("carry-look").onclick = () => actOnSession((session) => previewCarry(session, version));
  find("carry-do").onclick = () => change("carry", { version }, null);
}

async function previewCarry(session, version) {
  const would = await see(`carry/${session}/${version}`);
  const rows = would.changed.map(([before, after]) => [before[0], cellWords(before), cellWords(after)]);
  const answer = would.answer === "conflict" ? "a conflict" : would.certain ? "certain" : "a fix with open cells";
  const words = `On version ${version} the record would be ${answer}.`;
  find("carry-preview").replaceChildren(make("p", {}, words),
    would.added.length > 0 ? make("p", {}, `It would get ${listed(would.added)}.`) : "",
    would.dropped.length > 0 ? make("p", {}, `It would lose ${listed(would.dropped)}.`) : "",
    rows.length > 0 ? table("Cells that would change", ["Attribute", "Now", "Then"], rows)
      : make("p", {}, "No other cell would change."));
  say(words);
}

/** A cell in words: its text, its state, and the step that fixed it. */
function cellWords(printed) {
  const cell = cellOf(printed);
  const by = cell.state === "fixed" ? ` by ${cell.rule}, row ${cell.row} of ${cell.master}` : "";
  return `${shown(cell.text)}, ${cell.state}${by}`;
}

function startSession() {
  find("cells").onsubmit = (event) => event.preventDefault();
  find("drafts-confirm").onclick = () => confirmCells(typedCells(drafts()), drafts()[0]);
  find("drafts-preview").onclick = () => actOnSession(tryDrafts);
  find("drafts-keep").onclick = () => keepDrafts(drafts());
  find("commit-certain").onclick = () => actOnSession((session) => commit(session, "certain"));
  find("commit-partial").onclick = () => actOnSession((session) => commit(session, "partial"));
  find("another").onclick = () => act(() => enterRecord(record.view.edition));
  find("abandon").onclick = () => { find("abandon-sure").hidden = false; find("abandon-no").focus(); };
  find("abandon-no").onclick = () => { find("abandon-sure").hidden = true; find("abandon").focus(); };
  find("abandon-yes").onclick = () => change("abandon", {}, null);
}

// ---------------------------------------------------------------------------------------------------------------------
// Publishing
// ---------------------------------------------------------------------------------------------------------------------

function field(id) {
  return encodeURIComponent(find(id).value);
}

/** What a steward publishes: the ends of the targets and the body, read of a form, and words for what fits. */
const PUBLISHED_KINDS = {
  schema: {
    read: async () => ({ check: "schema", publish: "schemas", body: await bytesOf(find("schema-file"), MOST.text) }),
    words: (fits) => `with the attributes ${listed(fits.attributes)}`,
  },
  master: {
    read: async () => {
      const name = field("master-name");
      const body = await bytesOf(find("master-file"), MOST.sheet);
      return { check: `master/${name}`, publish: `masters/${name}`, body };
    },
    words: (fits) => `with ${count(fits.rows, "row", "rows")} and the columns ${listed(fits.columns)}`,
  },
  rulebook: {
    read: async () => {
      const rest = `${field("rulebook-name")}/${find("rulebook-schema").value}`;
      const body = await bytesOf(find("rulebook-file"), MOST.text);
      return { check: `rulebook/${rest}`, publish: `rulebooks/${rest}`, body };
    },
    words: (fits) => `with the rules ${listed(fits.rules)}`,
  },
  edition: {
    read: async () => {
      const name = field("new-edition");
      return { check: `edition/${name}`, publish: `editions/${name}`, body: await editionBody() };
    },
    words: (fits) => `whose index has ${count(fits.entries, "entry", "entries")}`,
  },
};

/** The result of a form, which is emptied when anything in the form changes. */
function resultOf(id) {
  return find(`publish-${id}`).querySelector(".result");
}

function onPublish(id, task) {
  const form = find(`publish-${id}`).querySelector("form");
  form.onsubmit = (event) => {
    event.preventDefault();
    act(task, resultOf(id));
  };
  form.oninput = () => resultOf(id).replaceChildren();
}

/** Checks a text, says what the desk would make of it, and offers to publish these very bytes. */
async function check(id) {
  const kind = PUBLISHED_KINDS[id];
  const { check: route, publish, body } = await kind.read();
  resultOf(id).replaceChildren();
  const fits = await send("POST", `/desk/check/${route}`, body);
  const notes = (fits.notes || []).map((note) => make("li", {}, capital(note)));
  const words = `It fits: the ${fits.fits} ${fits.name} would be version ${fits.version}, ${kind.words(fits)}.`;
  resultOf(id).replaceChildren(
    make("p", { class: "good" }, words),
    notes.length === 0 ? "" : make("div", {}, make("p", {}, "These may be slips:"), make("ul", {}, ...notes)),
    publishButton(id, publish, body));
}

function publishButton(id, rest, body) {
  return button("Publish", () => act(async () => {
    const made = await write(desk.steward, rest, body);
    find(`publish-${id}`).querySelector("form").reset();
    await loadPublished();
    resultOf(id).replaceChildren(make("p", { class: "good" }, madeWords(made)));
    find(`publish-${id}`).querySelector("summary").focus();
  }, resultOf(id)));
}

/** How many rows have each verdict. */
function verdicts(rows) {
  return `${rows.certain} certain, ${rows.partial} partial, ${rows.conflict} in conflict`;
}

function madeWords(made) {
  if (made.made === "region") {
    return `Region ${made.region} is published: ${verdicts(made)}.`;
  }
  return made.made === "clerk" ? `The clerk ${made.name} is added.`
    : `The ${made.made} ${made.name} is published as version ${made.version}.`;
}

/** A line for each master: whether the edition has it, and in which version. */
function fillMasters() {
  const names = [...newest(desk.published.masters).keys()];
  find("edition-masters").replaceChildren(...names.map((name) => {
    const choices = newestFirst(desk.published.masters.filter(([other]) => other === name));
    const select = make("select", { "aria-label": `Version of ${name}`, "data-master": name });
    fillSelect(select, choices);
    return make("p", { class: "field check" },
      make("input", { type: "checkbox", id: `has-${name}` }), make("label", { for: `has-${name}` }, name), select);
  }), names.length === 0 ? make("p", {}, "No master is published yet.") : "");
}

/** The body of an edition: that of the file where one is chosen, else what the fields say. */
async function editionBody() {
  if (find("edition-file").files.length > 0) {
    return bytesOf(find("edition-file"), MOST.text);
  }
  if (find("edition-rulebook").value === "") {
    throw new Slip("No rulebook is published yet. Publish one first.");
  }
  const chosen = selectsIn("edition-masters").filter((select) => find(`has-${select.dataset.master}`).checked);
  return JSON.stringify({
    folded: find("edition-folded").value.split(/[\s,]+/).filter((name) => name !== ""),
    masters: chosen.map((select) => versioned(select.value)),
    rulebook: versioned(find("edition-rulebook").value),
  });
}

/** `post/2` as a name and a number. */
function versioned(value) {
  const [name, version] = value.split("/");
  return [name, Number(version)];
}

function selectsIn(id) {
  return [...find(id).querySelectorAll("select")];
}

/** Reads a region, says what it has, and offers to publish it. The desk has no check for regions. */
async function readRegion() {
  const region = regionOf(textOf(await bytesOf(find("region-file"), MOST.sheet)));
  const words = `The file has ${count(region.rows.length, "row", "rows")} of ${listed(region.attributes)}.`;
  resultOf("region").replaceChildren(make("p", { class: "good" }, words),
    publishButton("region", `regions/${find("region-edition").value}`, JSON.stringify(region)));
}

/** A region from JSON, or from a sheet whose header names the attributes. */
function regionOf(text) {
  if (text.trimStart().startsWith("{")) {
    return regionOfJson(text);
  }
  const [attributes = [], ...rows] = readSheet(text);
  return { attributes, rows };
}

function regionOfJson(text) {
  try {
    const { attributes, rows } = JSON.parse(text);
    if (Array.isArray(attributes) && Array.isArray(rows)) {
      return { attributes, rows };
    }
  } catch {
    throw new Slip("The file is no JSON.");
  }
  throw new Slip("The file is to have the keys attributes, a list of names, and rows, a list of lists of texts.");
}

/** Offers the masters of the chosen edition, and the columns of the chosen master for each attribute. */
async function offerMasters() {
  const made = await chosenEdition();
  fillSelect(find("derived-master"), made === null ? [] : choicesOf(made.masters));
  await offerColumns();
}

async function chosenEdition() {
  const { value } = find("derived-edition");
  return value === "" ? null : lookOnce(`/desk/editions/${value}`);
}

async function offerColumns() {
  const made = await chosenEdition();
  const { value } = find("derived-master");
  const columns = value === "" ? [] : (await lookOnce(`/desk/rows/${value}/1`)).cells.map(([column]) => column);
  const choices = [["", "not used"], ...columns.map((column) => [column, column])];
  find("derived-pairs").replaceChildren(...(made === null ? [] : made.attributes).map((name) => {
    const select = make("select", { id: `column-${name}`, "data-attribute": name });
    fillSelect(select, choices);
    return make("p", { class: "field" }, make("label", { for: `column-${name}` }, name), select);
  }));
}

/** Shows the rows that a master gives, and offers to publish 200 of them as a region. */
async function derive() {
  const [master] = versioned(find("derived-master").value);
  const pairs = selectsIn("derived-pairs").filter((select) => select.value !== "")
    .map((select) => [select.dataset.attribute, select.value]);
  const target = find("derived-edition").value;
  const [columns, ...rows] = readSheet(await send("POST", `/desk/derive/${target}`, JSON.stringify({ master, pairs })));
  resultOf("derived").replaceChildren(
    make("p", { class: "good" }, `${master} gives ${count(rows.length, "row", "rows")}; a region has at most 200.`),
    make("p", { class: "field" }, make("label", { for: "derived-from" }, "Region from the row in place"),
      make("input", { id: "derived-from", type: "number", min: "1", value: "1" })),
    button("Publish as a region", () => act(() => publishDerived(target, master, pairs), resultOf("derived"))),
    sheetTable(`Rows of ${master}`, columns, rows));
}

async function publishDerived(target, master, pairs) {
  const from = Number(find("derived-from").value);
  const made = await write(desk.steward, `derive/${target}`, JSON.stringify({ from, master, pairs }));
  resultOf("derived").replaceChildren(make("p", { class: "good" }, madeWords(made)));
  find("publish-derived").querySelector("summary").focus();
}

/** A sheet as a table of its first 200 rows. */
function sheetTable(caption, columns, rows) {
  const most = 200;
  const words = rows.length > most ? `the first ${most} of ${rows.length} rows` : count(rows.length, "row", "rows");
  return table(`${caption}: ${words}`, columns, rows.slice(0, most));
}

async function addClerk() {
  const made = await write(desk.steward, "clerks", JSON.stringify({ name: find("new-clerk").value }));
  find("publish-clerk").querySelector("form").reset();
  await loadPublished();
  resultOf("clerk").replaceChildren(make("p", { class: "good" }, madeWords(made)));
}

async function showSteward() {
  showView("steward", "Publish");
  await loadPublished();
}

/** The name of a file without its ending, where it can be a name. */
function nameOf(input) {
  const name = input.files.length === 0 ? "" : input.files[0].name.replace(/\.[^.]*$/, "").toLowerCase();
  return /^[a-z][a-z0-9_]{0,31}$/.test(name) ? name : "";
}

function startSteward() {
  onPublish("clerk", addClerk);
  Object.keys(PUBLISHED_KINDS).forEach((id) => onPublish(id, () => check(id)));
  onPublish("region", readRegion);
  onPublish("derived", derive);
  find("publish-derived").ontoggle = () => act(offerMasters, resultOf("derived"));
  find("derived-edition").onchange = () => act(offerMasters, resultOf("derived"));
  find("derived-master").onchange = () => act(offerColumns, resultOf("derived"));
  find("master-file").onchange = () => { find("master-name").value ||= nameOf(find("master-file")); };
}

// ---------------------------------------------------------------------------------------------------------------------
// What is published
// ---------------------------------------------------------------------------------------------------------------------

async function showPublished() {
  showView("published", "What is published");
  await loadPublished();
  const { clerks, editions, masters, rulebooks, schemas } = desk.published;
  find("published-lists").replaceChildren(
    publishedList("Editions", newestFirst(editions), "edition"),
    publishedList("Rulebooks", newestFirst(rulebooks), "rulebook"),
    publishedList("Masters", newestFirst(masters), "master"),
    publishedList("Schemas", newestFirst(schemas), "schema"),
    make("section", {}, make("h3", {}, "Clerks"), listOrNone(clerks.map(([name, last]) =>
      make("li", {}, `${name}, ${count(last, "accepted write", "accepted writes")}`)))));
}

/** The versions of a kind, the newest first, each with a link to it. */
function publishedList(title, choices, kind) {
  const items = choices.map(([value, words]) => make("li", {}, link(words, `#${kind}/${value}`)));
  return make("section", {}, make("h3", {}, title), listOrNone(items));
}

function listOrNone(items) {
  return items.length === 0 ? make("p", {}, "None yet.") : make("ul", {}, ...items);
}

/** Shows one published text as it was sent. */
async function showText(kind, name, version) {
  showView("one", `${capital(kind)} ${name} ${version}`);
  const target = `/desk/${kind}s/${name}/${version}`;
  const text = await look(target);
  const endings = { schema: "toml", master: "csv", rulebook: "txt" };
  find("one").replaceChildren(
    make("p", {}, link("Download it as it was published", target, { download: `${name}-${version}.${endings[kind]}` })),
    kind === "master" ? rowForm(name, version) : "",
    make("pre", { tabindex: "0", role: "group", "aria-label": `Text of the ${kind}` }, text.slice(0, 100000)),
    text.length > 100000 ? make("p", {}, "Here stands its beginning; the download has all of it.") : "");
}

/** A form that shows one row of a master. */
function rowForm(name, version) {
  const number = make("input", { id: "row-number", type: "number", min: "1", value: "1", required: true });
  const form = make("form", { class: "line" },
    make("p", { class: "field" }, make("label", { for: "row-number" }, "Row"), number),
    make("button", { type: "submit" }, "Show the row"));
  form.onsubmit = (event) => {
    event.preventDefault();
    act(async () => showMore(rowTable(await look(`/desk/rows/${name}/${version}/${number.value}`))));
  };
  return form;
}

/** Shows what was asked about the published thing that is shown. */
function showMore(...children) {
  find("one-more").replaceChildren(...children);
}

/** Shows an edition: what it was made of, its rules with their contradictions, and its regions. */
async function showEdition(name, version) {
  showView("one", `Edition ${name} ${version}`);
  const made = await look(`/desk/editions/${name}/${version}`);
  const regions = Array.from({ length: made.regions }, (_, at) =>
    button(`Region ${at + 1}`, () => act(() => showRegion(made, at + 1)), { class: "quiet" }));
  find("one").replaceChildren(
    table("What it was made of", ["Part", "Is"], editionParts(made)),
    table("Its rules", ["Rule", "Looks up", "In", "Fixes", "Two texts for one key"],
      made.rules.map((rule) => ruleCells(made, rule))),
    make("h3", {}, "Regions"),
    regions.length === 0 ? make("p", {}, "None yet.") : make("p", { class: "actions" }, ...regions));
}

function editionParts(made) {
  const both = ([name, version]) => `${name} ${version}`;
  return [
    ["Schema", both(made.schema)],
    ["Attributes", listed(made.attributes)],
    ["Rulebook", both(made.rulebook)],
    ["Masters", listed(made.masters.map(both))],
    ["Compared without regard to case", listed(made.folded) || "none"],
  ];
}

function ruleCells(made, [rule, keys, head, master]) {
  const label = { class: "quiet", "aria-label": `Contradictions of ${rule}` };
  const ask = button("Contradictions", () => act(() => showContradictions(made, rule)), label);
  return [rule, listed(keys), master, head, ask];
}

async function showContradictions(made, rule) {
  const [columns, ...rows] = readSheet(await look(`/desk/contradictions/${made.edition}/${made.version}/${rule}`));
  if (rows.length === 0) {
    showMore(make("p", {}, `The rule ${rule} never gives two texts for one attribute.`));
  } else {
    const words = `By the rule ${rule}, ${count(rows.length, "key gives", "keys give")} two texts for one attribute.`;
    showMore(make("p", {}, words), sheetTable(`Contradictions of ${rule}`, columns, rows));
  }
}

async function showRegion(made, number) {
  const region = await look(`/desk/regions/${made.edition}/${made.version}/${number}`);
  const rows = region.rows.map((texts, at) => [String(at + 1), ...texts, region.verdicts[at]]);
  showMore(sheetTable(`Region ${number}`, ["Row", ...region.attributes, "Verdict"], rows));
}

function startPublished() {
  find("desk-report-show").onclick = () => act(async () => {
    find("desk-report").replaceChildren(reportTable(await look("/desk/report")));
    say("The report stands below the button.");
  });
}

// ---------------------------------------------------------------------------------------------------------------------
// Start
// ---------------------------------------------------------------------------------------------------------------------

/** What is shown for the address after `#`. */
const VIEWS = {
  clerk: showClerk,
  session: (number) => showSessionNumber(Number(number)),
  steward: showSteward,
  published: showPublished,
  schema: (name, version) => showText("schema", name, version),
  master: (name, version) => showText("master", name, version),
  rulebook: (name, version) => showText("rulebook", name, version),
  edition: (name, version) => showEdition(name, Number(version)),
};

/** The pages of the navigation that each view belongs to. */
const PAGES = { clerk: "#clerk", session: "#clerk", steward: "#steward", published: "#published", one: "#published" };

/** Shows one view and hides the others. */
function showView(id, title) {
  for (const view of document.querySelectorAll(".view")) {
    view.hidden = view.id !== `view-${id}`;
  }
  for (const page of document.querySelectorAll("nav a")) {
    page.toggleAttribute("aria-current", false);
    if (page.getAttribute("href") === PAGES[id]) {
      page.setAttribute("aria-current", "page");
    }
  }
  document.title = `${title} - Fixdesk`;
  if (id === "session" || id === "one") {
    find(`${id}-title`).textContent = title;
  }
  if (id === "one") {
    find("one").replaceChildren();
    find("one-more").replaceChildren();
  }
}

/** Shows what the address asks for. The heading gets the focus, but where the page is loaded. */
function followAddress(isLoad) {
  const [name, ...rest] = decoded(location.hash.slice(1)).split("/");
  const view = Object.hasOwn(VIEWS, name) ? VIEWS[name] : VIEWS.clerk;
  act(async () => {
    try {
      await view(...rest);
    } finally {
      if (!isLoad) {
        focusHeading();
      }
    }
  });
}

/** Binds what is on the page. Inside another page it stays still: that page could lead a click to it unseen. */
function start() {
  if (window.self !== window.top) {
    refuse("The desk is not shown inside another page. Open it by itself.");
    return;
  }
  startClerk();
  startSession();
  startSteward();
  startPublished();
  find("skip").onclick = (event) => {
    event.preventDefault();
    find("main").focus();
  };
  window.onhashchange = () => followAddress(false);
  followAddress(true);
}

start();
