// The page of a store. It asks the service for what it keeps, and shows it. What comes from there is put into the page as text alone: a
// reason that a file states may have markup in it. d3 is version 3, as Debian has it.
"use strict";

const DAY = 86400000;
const MOST_DAYS = 400; // in one question
const FIRST_DAY = "19700101"; // of all that may be asked for
const YEARS_BACK = 25; // how far the last known day is looked for
const MOST_NMIS = 100; // in the list of streams
const MARGIN = { left: 46, right: 20, top: 24, bottom: 44 }; // of the plot
const NARROW = 500; // a plot of fewer pixels
const REST = 200; // milliseconds at an interval before its versions are asked for

const KINDS = [
  { kind: "A", name: "actual", days: "known, all actual" },
  { kind: "S", name: "substituted", days: "with substitutions" },
  { kind: "F", name: "final substituted", days: "final" },
  { kind: "E", name: "forward estimated", days: "estimated" },
  { kind: "N", name: "no value", days: "with gaps" },
  { kind: "unknown", name: "not known", days: "not known" },
];
const METHODS = { 14: "a like day", 15: "the mean of like days", 17: "a line", 19: "zero" };
const CODES = {
  M10: "The day isn't known.", M12: "The range has more than 400 days, or the export more than eight suffixes.",
  U1: "The store can't be read now (U1).", 502: "The service doesn't answer.", 504: "The service doesn't answer in time.",
  400: "The service can't read this request: a name, a date or a text isn't as it should be.",
};

const streams = []; // as the service lists them
const answers = new Map(); // what was asked of the stream, by path
const calendar = { key: "", stream: null, days: new Map() };
const plot = { steps: [], behind: [], picked: -1, pointed: -1 };
let turn = 0; // what was asked for last: an answer to anything before is dropped

const byId = (id) => document.getElementById(id);
const letter = (quality) => quality.charAt(0);

// Days are texts as the service has them, 20240306.

const compact = d3.time.format.utc("%Y%m%d");
const dashed = d3.time.format.utc("%Y-%m-%d");
const spoken = d3.time.format.utc("%a %-d %B %Y");
const short = d3.time.format.utc("%a %-d %b");
const timeOf = (date) => compact.parse(date).getTime();
const addDays = (date, count) => compact(new Date(timeOf(date) + count * DAY));
const firstOf = (until) => d3.max([FIRST_DAY, addDays(until, 1 - MOST_DAYS)]);
const daysFrom = (first, last) => d3.range(timeOf(first), timeOf(last) + 1, DAY).map((time) => compact(new Date(time)));
const mondayOf = (date) => addDays(date, -((compact.parse(date).getUTCDay() + 6) % 7));
const speak = (date) => spoken(compact.parse(date));
const toInput = (date) => dashed(compact.parse(date));
const fromInput = (text) => text.replace(/-/g, "");
const today = () => compact(new Date(Date.now() - new Date().getTimezoneOffset() * 60000));
const isDate = (text) => /^\d{8}$/.test(text ?? "") && text >= FIRST_DAY && compact(compact.parse(text) ?? new Date(0)) === text;

function clock(minutes) {
  return `${String(Math.floor(minutes / 60)).padStart(2, "0")}:${String(minutes % 60).padStart(2, "0")}`;
}

function moment(text) {
  return text.replace(/^(....)(..)(..)(..)(..)(..)$/, "$1-$2-$3 $4:$5:$6");
}

// Values are decimal texts with at most six decimals. Their sum is exact.

function millionths(value) {
  const [, sign, whole, decimals = ""] = /^(-?)(\d*)\.?(\d*)$/.exec(value);
  return BigInt(sign + (whole || "0") + decimals.padEnd(6, "0").slice(0, 6));
}

function sumOf(values) {
  const sum = values.reduce((total, value) => total + millionths(value), 0n);
  const digits = String(sum < 0n ? -sum : sum).padStart(7, "0");
  return (sum < 0n ? "-" : "") + `${digits.slice(0, -6)}.${digits.slice(-6)}`.replace(/\.?0+$/, "");
}

// The service.

class Refusal extends Error {
  constructor(status, text) {
    let code = "";
    try {
      code = JSON.parse(text).error;
    } catch {} // an answer of nginx is no JSON
    super(CODES[code] ?? CODES[status] ?? `The service refuses with ${status} ${code}.`);
  }
}

async function fetchText(path) {
  const answer = await fetch(path).catch(() => { throw new Error("The page isn't served any more."); });
  const text = await answer.text();
  if (!answer.ok) throw new Refusal(answer.status, text);
  return text;
}

// The text of an answer, asked for once.
function ask(path) {
  if (!answers.has(path)) {
    const asked = fetchText(path);
    asked.catch(() => answers.delete(path));
    answers.set(path, asked);
  }
  return answers.get(path);
}

const askJson = async (path) => JSON.parse(await ask(path));
const questionOf = (stream, from, to) => new URLSearchParams({ nmi: stream.nmi, suffix: stream.suffix, from, to });
const askRegister = async (name, stream, from, to) => d3.csv.parseRows(await ask(`/v1/${name}?${questionOf(stream, from, to)}`)).slice(1);
const askDay = (stream, date) => askJson(`/v1/days/${stream.nmi}/${stream.suffix}/${date}`);
const askVersions = (stream, step) => askJson(`/v1/versions/${stream.nmi}/${stream.suffix}/${step.date}/${step.interval}`);

// The export names each interval's quality, for all days in one answer.
function exportPath(nmi, suffixes, from, to, sender, receiver) {
  const now = d3.time.format.utc("%Y%m%d%H%M")(new Date(Date.now() + 10 * 3600000)); // the market's time
  const question = new URLSearchParams({ nmi, from, to, moment: now, sender, receiver });
  suffixes.forEach((suffix) => question.append("suffix", suffix));
  return `/v1/exports/nem12?${question}`;
}

// Which days of a range are known. Those of the stream's calendar are at hand, and others are asked for as gaps.
async function knownDays(stream, all) {
  const dates = all.filter((date) => date >= FIRST_DAY);
  if (calendar.stream === stream && dates.every((date) => calendar.days.has(date))) return dates.filter((date) => calendar.days.get(date).known);
  const rows = await askRegister("gaps", stream, dates[0], dates[dates.length - 1]);
  const unknown = new Set(rows.filter((row) => row[3] === "0").map((row) => row[2]));
  return dates.filter((date) => !unknown.has(date));
}

// The last known day of a stream, or none.
async function lastDay(stream) {
  const end = addDays(today(), 31);
  for (let to = end; timeOf(to) > timeOf(end) - YEARS_BACK * 365 * DAY; to = addDays(to, -MOST_DAYS)) {
    const known = await knownDays(stream, daysFrom(firstOf(to), to));
    if (known.length) return known[known.length - 1];
  }
  return null;
}

// The last day of the calendar: that of the address, or else the last known one, where the day that is shown is among the days before it.
async function untilOf({ stream, until, date }) {
  const end = until ?? (await lastDay(stream)) ?? today();
  return date && (date > end || date < addDays(end, 1 - MOST_DAYS)) ? date : end;
}

// What is shown is in the address of the page.

function place() {
  const query = new URLSearchParams(location.search);
  const date = (name) => (isDate(query.get(name)) ? query.get(name) : null);
  return {
    stream: streams.find((stream) => stream.nmi === query.get("nmi") && stream.suffix === query.get("suffix")) ?? streams[0],
    until: date("until"), date: date("date"), view: query.get("view") === "week" ? "week" : "day",
    behind: /^[0-4]$/.test(query.get("behind")) ? Number(query.get("behind")) : 1, interval: Number(query.get("interval")) || null,
  };
}

function addressOf(changes) {
  const query = new URLSearchParams(location.search);
  for (const [name, value] of Object.entries(changes)) {
    if (value === null) query.delete(name);
    else query.set(name, value);
  }
  return `?${query}`;
}

function go(changes) {
  history.pushState(null, "", addressOf(changes));
  show();
}

function say(fault) {
  byId("fault").hidden = !fault;
  byId("fault").textContent = fault ? fault.message : "";
}

// Shows what the address says. What was begun before is dropped.
async function show() {
  const mine = ++turn;
  const isLate = () => mine !== turn;
  byId("main").setAttribute("aria-busy", "true");
  try {
    say(null);
    const listed = streams.length ? [] : (await askJson("/v1/streams")).streams;
    if (isLate()) return;
    for (const stream of listed) streams.push(stream);
    const where = place();
    showStreams(where.stream);
    if (!where.stream) throw new Error("The store knows no stream yet.");
    where.until = await untilOf(where);
    await showCalendar(where, isLate);
    if (!isLate()) await showPlot(where, isLate);
    if (!isLate()) await markOthers(where, isLate);
  } catch (fault) {
    if (!isLate()) say(fault);
  } finally {
    if (!isLate()) byId("main").setAttribute("aria-busy", "false");
  }
}

// Streams.

function showStreams(current) {
  const wanted = byId("filter").value.trim().toUpperCase();
  const all = d3.nest().key((stream) => stream.nmi).entries(streams.filter((stream) => stream.nmi.includes(wanted)));
  const items = d3.select("#streams").selectAll("li").data(all.slice(0, MOST_NMIS), (group) => group.key);
  items.enter().append("li").append("span").text((group) => group.key);
  items.exit().remove();
  items.order();
  const links = items.selectAll("a").data((group) => group.values, (stream) => stream.suffix);
  links.enter().append("a").text((stream) => stream.suffix)
    .attr("aria-label", (stream) => `NMI ${stream.nmi} suffix ${stream.suffix}`)
    .on("click", follow);
  links.exit().remove();
  links.attr("href", (stream) => addressOf({ nmi: stream.nmi, suffix: stream.suffix, until: null, date: null, interval: null }))
    .attr("aria-current", (stream) => (stream === current ? "true" : null));
  byId("streams-count").textContent = all.length > MOST_NMIS ? `the first ${MOST_NMIS} of ${all.length} NMIs` : `${all.length} NMIs`;
}

// A link to another stream, in this tab. A click with a key held opens a tab, as with any link.
function follow(stream) {
  if (d3.event.ctrlKey || d3.event.metaKey || d3.event.shiftKey) return;
  d3.event.preventDefault();
  answers.clear();
  history.pushState(null, "", this.getAttribute("href"));
  show();
}

// The calendar.

const countOf = (row) => Number(row[4]) - Number(row[3]) + 1;

function kindOf(day) {
  if (!day.known) return "unknown";
  return ["N", "S", "E", "F"].find((kind) => day[kind] > 0) ?? "A";
}

// Gaps and finals say of each day whether it is known, and how many of its intervals have no value or a final one.
async function showCalendar({ stream, until, date }, isLate) {
  const from = firstOf(until);
  const key = [stream.nmi, stream.suffix, until].join();
  if (calendar.key !== key) {
    const [gaps, finals] = await Promise.all([askRegister("gaps", stream, from, until), askRegister("finals", stream, from, until)]);
    if (isLate()) return;
    const days = new Map(daysFrom(from, until).map((each) => [each, { date: each, known: true, N: 0, S: 0, F: 0, E: 0 }]));
    for (const row of gaps) {
      if (row[3] === "0") days.get(row[2]).known = false;
      else days.get(row[2]).N += countOf(row);
    }
    for (const row of finals) days.get(row[2]).F += countOf(row);
    Object.assign(calendar, { key, stream, days, whole: false });
    drawCalendar(stream, from, until);
  }
  byId("until").value = toInput(until);
  select(date ?? lastKnown() ?? until);
}

function lastKnown() {
  return [...calendar.days.values()].filter((day) => day.known).pop()?.date;
}

// Substitutions and estimates, by the current readings of all days in one answer.
async function markOthers({ stream, until }, isLate) {
  if (calendar.whole) return;
  const path = exportPath(stream.nmi, [stream.suffix], firstOf(until), until, "BOARD", "BOARD");
  const text = await fetchText(path);
  if (isLate()) return;
  let count = 0, day = null;
  const add = (quality, intervals) => {
    if (letter(quality) === "S" || letter(quality) === "E") day[letter(quality)] += intervals;
  };
  for (const line of text.split("\r\n")) {
    const fields = line.split(",");
    if (fields[0] === "200") count = 1440 / Number(fields[8]);
    if (fields[0] === "300") day = calendar.days.get(fields[1]);
    if (fields[0] === "300") add(fields[2 + count], count);
    if (fields[0] === "400") add(fields[3], Number(fields[2]) - Number(fields[1]) + 1);
  }
  calendar.whole = true;
  markDays();
  readDay(document.querySelector("#calendar [aria-selected=true]").dataset.date);
}

function drawCalendar(stream, from, until) {
  const weeks = d3.range(timeOf(mondayOf(from)), timeOf(until) + 1, 7 * DAY).map((time) => compact(new Date(time)));
  const table = d3.select("#calendar");
  table.selectAll("*").remove();
  byId("calendar-title").textContent = `Calendar of ${stream.nmi} ${stream.suffix}`;
  const head = table.append("thead").append("tr").attr("role", "row");
  head.append("td");
  head.selectAll("th").data(weeks).enter().append("th").attr("scope", "col")
    .text((monday) => {
      const first = daysFrom(monday, addDays(monday, 6)).find((date) => date.endsWith("01"));
      return first ? d3.time.format.utc(first.slice(4, 6) === "01" ? "%b %y" : "%b")(compact.parse(first)) : "";
    });
  const names = ["Mon", "Tue", "Wed", "Thu", "Fri", "Sat", "Sun"];
  const rows = table.append("tbody").selectAll("tr").data(names).enter().append("tr").attr("role", "row");
  rows.append("th").attr("scope", "row").text((name) => name);
  rows.selectAll("td").data((_, weekday) => weeks.map((monday) => addDays(monday, weekday))).enter().append("td")
    .filter((date) => calendar.days.has(date))
    .attr({ role: "gridcell", "data-date": (date) => date, tabindex: -1 })
    .on("click", (date) => go({ date, interval: null }))
    .on("mouseenter", readDay)
    .on("focus", readDay);
  markDays();
}

function tellDay(day) {
  const parts = [["N", "without a value"], ["S", "substituted"], ["F", "final"], ["E", "estimated"]]
    .filter(([kind]) => day[kind]).map(([kind, words]) => `${day[kind]} intervals ${words}`);
  return `${speak(day.date)}: ${day.known ? parts.join(", ") || "all actual" : "not known"}`;
}

function readDay(date) {
  byId("calendar-readout").textContent = tellDay(calendar.days.get(date));
}

function markDays() {
  const marked = (kind) => (kind === "A" || kind === "unknown" ? "" : kind);
  d3.selectAll("#calendar td[data-date]").datum(function () { return this.dataset.date; })
    .attr("data-kind", (date) => kindOf(calendar.days.get(date)))
    .attr("aria-label", (date) => tellDay(calendar.days.get(date)))
    .text((date) => marked(kindOf(calendar.days.get(date))));
  const counts = d3.nest().key(kindOf).rollup((days) => days.length).map([...calendar.days.values()]);
  legend("#legend", KINDS.filter(({ kind }) => counts[kind]).map(({ kind, days }) => ({ kind, mark: marked(kind), text: `${days}: ${counts[kind]}` })));
}

function legend(list, entries) {
  const items = d3.select(list).selectAll("li").data(entries);
  const added = items.enter().append("li");
  added.append("i").attr("aria-hidden", "true");
  added.append("span");
  items.exit().remove();
  items.select("i").attr("data-kind", (entry) => entry.kind).text((entry) => entry.mark);
  items.select("span").text((entry) => entry.text);
}

const cellOf = (date) => document.querySelector(`#calendar td[data-date="${date}"]`);

// Marks the day that is shown, which may be behind the calendar in a week. It alone is reached by the tabulator.
function select(date) {
  const cell = cellOf(date), scroll = byId("calendar-scroll");
  if (!cell) return;
  d3.selectAll("#calendar td[data-date]").attr({ tabindex: -1, "aria-selected": "false" });
  d3.select(cell).attr({ tabindex: 0, "aria-selected": "true" });
  const left = cell.offsetLeft - scroll.clientWidth / 2;
  if (Math.abs(left - scroll.scrollLeft) > scroll.clientWidth / 2 - 40) scroll.scrollLeft = left;
  readDay(date);
}

function calendarKey(event) {
  const cell = event.target.closest("td[data-date]");
  const dates = [...calendar.days.keys()];
  const steps = { ArrowLeft: -7, ArrowRight: 7, ArrowUp: -1, ArrowDown: 1, PageUp: -28, PageDown: 28, Home: -dates.length, End: dates.length };
  if (!cell) return;
  if (event.key === "Enter" || event.key === " ") go({ date: cell.dataset.date, interval: null });
  else if (event.key in steps) {
    const place = dates.indexOf(cell.dataset.date), to = place + steps[event.key];
    const isOut = to < 0 || to >= dates.length;
    const next = isOut && event.key.startsWith("Arrow") ? place : Math.max(0, Math.min(dates.length - 1, to));
    cell.tabIndex = -1;
    cellOf(dates[next]).tabIndex = 0;
    cellOf(dates[next]).focus();
  } else return;
  event.preventDefault();
}

// The plot.

function stepsOf(day, start) {
  return day.readings.map(([quality, code, text, value], k) => ({
    date: day.date, interval: k + 1, begin: k * day.length, from: start + k * day.length, to: start + (k + 1) * day.length,
    quality, code, text, value, unit: day.unit, length: day.length, number: value === "" ? null : Number(value),
  }));
}

// The known days among these, each with its place on the axis.
async function askDays(stream, dates) {
  const known = await knownDays(stream, dates);
  const days = await Promise.all(known.map((date) => askDay(stream, date)));
  return days.map((day) => ({ ...day, steps: stepsOf(day, dates.indexOf(day.date) * 1440) }));
}

async function showPlot(where, isLate) {
  const { stream, view } = where;
  const date = where.date ?? lastKnown() ?? where.until;
  const first = view === "week" ? mondayOf(date) : date;
  const dates = daysFrom(first, view === "week" ? addDays(first, 6) : first);
  const before = dates.map((each) => addDays(each, -7 * where.behind));
  const [days, behind] = await Promise.all([askDays(stream, dates), where.behind ? askDays(stream, before) : []]);
  if (isLate()) return;
  const steps = days.flatMap((day) => day.steps);
  const alike = behind.filter((day) => !days.length || day.unit === days[0].unit);
  const wanted = steps.findIndex((step) => step.date === date && step.interval === (where.interval ?? 1));
  Object.assign(plot, {
    stream, view, dates, before, days, steps, behind: alike.flatMap((day) => day.steps),
    shortest: d3.min([...days, ...alike], (day) => day.length), picked: Math.max(wanted, steps.length ? 0 : -1), pointed: -1,
  });
  byId("date").value = toInput(date);
  byId("behind").value = String(where.behind);
  document.querySelector(`input[name=view][value=${view}]`).checked = true;
  tellPlot();
  drawPlot();
  tellEvents();
  fillReadings();
  fillExport();
  pick(plot.picked);
}

function tellPlot() {
  const { stream, view, dates, days } = plot;
  const title = view === "week" ? `Week from ${speak(dates[0])}` : speak(dates[0]);
  byId("plot-title").textContent = title;
  document.title = `${stream.nmi} ${stream.suffix}, ${title}: mdstore`;
  const units = [...new Set(days.map((day) => day.unit))];
  const lengths = [...new Set(days.map((day) => day.length))];
  const meters = [stream.meter && `meter ${stream.meter}`, stream.register && `register ${stream.register}`].filter(Boolean);
  const texts = [`NMI ${stream.nmi}, suffix ${stream.suffix}`, ...meters];
  if (days.length) {
    texts.push(`intervals of ${lengths.join(" and ")} minutes`);
    for (const unit of units) {
      texts.push(`sum ${sumOf(days.filter((day) => day.unit === unit).flatMap((day) => day.readings.map((reading) => reading[3])))} ${unit}`);
    }
  } else texts.push("not known");
  byId("plot-summary").textContent = texts.join(" · ");
  const counts = d3.nest().key((step) => letter(step.quality)).rollup((steps) => steps.length).map(plot.steps);
  legend("#qualities", [
    ...KINDS.filter(({ kind }) => counts[kind]).map(({ kind, name }) => ({ kind, mark: kind, text: `${name}: ${counts[kind]}` })),
    ...(plot.behind.length ? [{ kind: "behind", mark: "- -", text: `behind: ${view === "week" ? "week from " : ""}${speak(plot.before[0])}` }] : []),
  ]);
}

function tellEvents() {
  const events = plot.days.flatMap((day) => day.events.map((event) => [day.date, ...event]));
  const items = d3.select("#events").selectAll("li").data(events);
  items.enter().append("li");
  items.exit().remove();
  items.text(([date, code, order, time, index]) => [`${speak(date)}: event ${code}`, order && `service order ${order}`,
    time && `read at ${moment(time)}`, index && `index read ${index}`].filter(Boolean).join(", "));
}

const valued = (steps) => steps.filter((step) => step.number !== null);

// Steps that follow each other with the same of something.
function stretches(steps, key) {
  const found = [];
  for (const step of steps) {
    const last = found[found.length - 1];
    if (last && last.key === key(step) && last[last.length - 1].to === step.from) last.push(step);
    else found.push(Object.assign([step], { key: key(step) }));
  }
  return found;
}

// The line of steps that have a value. It begins at the height of the step before, where that touches it.
function edgeOf(stretch, x, y, before) {
  const start = before && before.to === stretch[0].from && before.number !== null ? `${y(heightOf(before))}V` : "";
  return `M${x(stretch[0].from)},${start}` + stretch.map((step, k) => `${k ? "V" : ""}${y(heightOf(step))}H${x(step.to)}`).join("");
}

// What is drawn of a value. Where days of several lengths are beside each other, an energy is drawn as its share of the shortest.
const isEnergy = (unit) => unit.endsWith("h");
const heightOf = (step) => (isEnergy(step.unit) ? (step.number * plot.shortest) / step.length : step.number);

function scalesOf(width, height) {
  const numbers = valued([...plot.steps, ...plot.behind]).map(heightOf);
  const top = Math.max(0, d3.max(numbers) ?? 1), bottom = Math.min(0, d3.min(numbers) ?? 0);
  return {
    x: d3.scale.linear().domain([0, plot.dates.length * 1440]).range([0, width]),
    y: d3.scale.linear().domain([bottom, top > bottom ? top : bottom + 1]).nice(5).range([height, 0]),
  };
}

function drawPlot() {
  const box = byId("plot"), full = Math.max(box.clientWidth, 240);
  const height = full < NARROW ? 190 : 240, width = full - MARGIN.left - MARGIN.right;
  const { x, y } = scalesOf(width, height);
  d3.select(box).select("svg").remove();
  const svg = d3.select(box).insert("svg", "div").attr({ "aria-hidden": "true", viewBox: `0 0 ${full} ${height + MARGIN.top + MARGIN.bottom}` });
  definePatterns(svg.append("defs"));
  const body = svg.append("g").attr("transform", `translate(${MARGIN.left},${MARGIN.top})`);
  drawAxes(body, x, y, width, height);
  drawSteps(body, x, y, height);
  drawMarks(body.append("g").attr("transform", `translate(0,${height + 4})`), x);
  body.append("rect").attr({ class: "pointed", y: 0, height }).style("display", "none");
  body.append("rect").attr({ class: "cursor", y: 0, height }).style("display", "none");
  body.append("circle").attr({ class: "dot", r: 4.5 }).style("display", "none");
  Object.assign(plot, { x, y });
}

// A hatch for each quality but actual: S leans to one side and N to the other, F crosses, and E has dots.
function definePatterns(defs) {
  const shapes = { S: "M-2,2L2,-2M0,8L8,0M6,10L10,6", F: "M0,0L8,8M8,0L0,8", E: "M3,4h2", N: "M-2,6L2,10M0,0L8,8M6,-2L10,2" };
  const patterns = defs.selectAll("pattern").data(Object.entries(shapes)).enter().append("pattern")
    .attr({ id: ([kind]) => `hatch-${kind}`, width: 8, height: 8, patternUnits: "userSpaceOnUse" });
  patterns.append("rect").attr({ width: 8, height: 8, class: ([kind]) => kind });
  patterns.append("path").attr({ d: ([, shape]) => shape, class: ([kind]) => kind });
}

function drawAxes(body, x, y, width, height) {
  const ticks = d3.svg.axis().scale(y).orient("left").ticks(5).tickSize(-width, 0).tickPadding(6);
  body.append("g").attr("class", "axis").call(ticks);
  const units = [...new Set(plot.days.map((day) => (isEnergy(day.unit) ? `${day.unit} in ${plot.shortest} minutes` : day.unit)))];
  body.append("text").attr({ x: 6 - MARGIN.left, y: -9 }).text(units.join(", "));
  const foot = body.append("g").attr({ class: "axis", transform: `translate(0,${height + 20})` });
  if (plot.view === "week") {
    const name = d3.time.format.utc(width < 420 ? "%-d" : "%a %-d %b");
    foot.selectAll("text").data(plot.dates).enter().append("text")
      .attr({ class: "middle", x: (_, k) => x(k * 1440 + 720), y: 18 }).text((date) => name(compact.parse(date)));
    body.selectAll(".midnight").data(d3.range(1, 7)).enter().append("line")
      .attr({ class: "midnight", x1: (k) => x(k * 1440), x2: (k) => x(k * 1440), y1: 0, y2: height });
  } else {
    const hours = d3.range(0, 25, width < 420 ? 6 : 3);
    foot.call(d3.svg.axis().scale(x).orient("bottom").tickValues(hours.map((hour) => hour * 60)).tickFormat(clock).tickSize(0, 0).tickPadding(7));
    foot.select(".domain").remove();
  }
}

function drawSteps(body, x, y, height) {
  const bars = body.append("g").selectAll("rect").data(plot.steps).enter().append("rect").attr({
    class: (step) => `step ${letter(step.quality)}`,
    x: (step) => x(step.from), width: (step) => x(step.to) - x(step.from),
    y: (step) => (step.number === null ? 0 : y(Math.max(heightOf(step), 0))),
    height: (step) => (step.number === null ? height : Math.abs(y(heightOf(step)) - y(0))),
    "data-date": (step) => step.date, "data-interval": (step) => step.interval, "data-quality": (step) => step.quality,
    "data-code": (step) => step.code, "data-text": (step) => step.text, "data-value": (step) => step.value,
  });
  bars.filter((step) => letter(step.quality) !== "A").attr("fill", (step) => `url(#hatch-${letter(step.quality)})`);
  body.append("path").attr({ class: "behind", d: stretches(valued(plot.behind), () => 0).map((stretch) => edgeOf(stretch, x, y)).join("") });
  const lines = stretches(valued(plot.steps), (step) => letter(step.quality));
  body.selectAll(".edge").data(lines).enter().append("path").attr({
    class: (stretch) => `edge ${stretch.key}${plot.steps.length > 400 ? " fine" : ""}`,
    d: (stretch) => edgeOf(stretch, x, y, plot.steps[plot.steps.indexOf(stretch[0]) - 1]),
  });
  const absent = plot.dates.filter((date) => !plot.days.some((day) => day.date === date));
  body.selectAll(".absent").data(absent).enter().append("text")
    .attr({ class: "absent middle", x: (date) => x(plot.dates.indexOf(date) * 1440 + 720), y: height / 2 }).text("not known");
}

// Below the plot a band has the quality of each stretch in letters. One that has no room beside the one before is put to its right.
function drawMarks(band, x) {
  const runs = stretches(plot.steps, (step) => step.quality);
  band.selectAll("rect").data(runs).enter().append("rect").attr({
    class: (run) => `run ${letter(run.key)}`, x: (run) => x(run[0].from), width: (run) => x(run[run.length - 1].to) - x(run[0].from), height: 14,
  });
  let end = -Infinity; // of the text before
  for (const run of runs) {
    const from = x(run[0].from), to = x(run[run.length - 1].to), middle = (from + to) / 2;
    const text = 7 * run.key.length + 4 < to - from ? run.key : letter(run.key);
    const half = 3.5 * text.length + 1, place = Math.max(middle, end + half);
    if (place - middle > (letter(run.key) === "A" ? 0 : 18) || (letter(run.key) === "A" && to - from < 10)) continue;
    band.append("text").attr({ class: `mark ${letter(run.key)}`, x: place, y: 11 }).text(text);
    end = place + half;
  }
}

// What is pointed at, and what is picked. The versions are those of what is picked.

function tellQuality(quality) {
  const method = quality.slice(1);
  const name = KINDS.find(({ kind }) => kind === letter(quality))?.name ?? "";
  return `${quality} ${name}${METHODS[method] ? ` by ${METHODS[method]}` : ""}`;
}

const tellReason = (code, text) => [code, text].filter(Boolean).join(": ");

function linesOf(step) {
  const reason = tellReason(step.code && `reason ${step.code}`, step.text);
  return [
    `${plot.view === "week" ? short(compact.parse(step.date)) : `interval ${step.interval}`}, ${clock(step.begin)} to ${clock(step.begin + step.length)}`,
    step.number === null ? "no value" : `${step.value} ${step.unit}`,
    tellQuality(step.quality), reason, step.update ? `update ${moment(step.update)}` : "",
  ];
}

// The current one of versions, the latest first: the first of the day's length.
function currentOf(step, versions) {
  return versions.find((version) => version[5] === String(step.length));
}

function isPlotFocused() {
  return document.activeElement === byId("plot");
}

function placeMark(selection, step, isShown) {
  selection.style("display", isShown ? null : "none");
  if (isShown) selection.attr({ x: plot.x(step.from), width: Math.max(plot.x(step.to) - plot.x(step.from), 1.5) });
}

// On a narrow page what is said of an interval is below the plot, and stays there.
function showTooltip() {
  const tooltip = byId("tooltip"), box = byId("plot"), isNarrow = box.clientWidth < NARROW;
  const step = plot.steps[plot.pointed >= 0 ? plot.pointed : isPlotFocused() || isNarrow ? plot.picked : -1];
  tooltip.hidden = !step;
  tooltip.classList.toggle("below", isNarrow);
  placeMark(d3.select("#plot .pointed"), plot.steps[plot.pointed], plot.pointed >= 0);
  if (!step) return;
  const lines = d3.select(tooltip).selectAll("p").data(linesOf(step));
  lines.enter().append("p").attr("class", (_, k) => (k === 1 ? "value" : null));
  lines.text((line) => line);
  const middle = MARGIN.left + plot.x((step.from + step.to) / 2);
  const left = middle < box.clientWidth / 2 ? middle + 14 : middle - 14 - tooltip.offsetWidth;
  tooltip.style.left = `${Math.max(0, Math.min(left, box.clientWidth - tooltip.offsetWidth))}px`;
}

// Fills in the update of a step, once it has been looked at for a while.
let resting = 0;
function learnUpdate(step) {
  const { stream } = plot;
  clearTimeout(resting);
  resting = setTimeout(async () => {
    try {
      const { versions } = await askVersions(stream, step);
      step.update = currentOf(step, versions.slice().reverse())?.[0] ?? "";
      showTooltip();
    } catch {} // the tooltip does without it
  }, REST);
}

function point(index) {
  if (index === plot.pointed) return;
  plot.pointed = index;
  if (index >= 0 && plot.steps[index].update === undefined) learnUpdate(plot.steps[index]);
  showTooltip();
}

function pick(index) {
  const step = plot.steps[index];
  const slider = byId("plot");
  plot.picked = index;
  placeMark(d3.select("#plot .cursor"), step, Boolean(step));
  d3.select("#plot .dot").style("display", step && step.number !== null ? null : "none");
  slider.setAttribute("aria-valuemax", Math.max(1, plot.steps.length));
  slider.setAttribute("aria-valuenow", Math.max(1, index + 1));
  slider.setAttribute("aria-valuetext", step ? linesOf(step).filter(Boolean).join(", ") : "no interval");
  if (step && step.number !== null) d3.select("#plot .dot").attr({ cx: plot.x((step.from + step.to) / 2), cy: plot.y(heightOf(step)) });
  showTooltip();
  showVersions(step);
}

// Picks an interval for its user, and keeps it in the address.
function choose(index) {
  const step = plot.steps[Math.max(0, Math.min(plot.steps.length - 1, index))];
  if (!step) return;
  history.replaceState(null, "", addressOf({ date: step.date, interval: step.interval }));
  byId("date").value = toInput(step.date);
  select(step.date);
  pick(plot.steps.indexOf(step));
}

function indexAt(event) {
  const minute = plot.x.invert(event.clientX - byId("plot").getBoundingClientRect().left - MARGIN.left);
  return plot.steps.findIndex((step) => step.from <= minute && minute < step.to);
}

function plotKey(event) {
  const step = plot.steps[plot.picked];
  if (!step) return;
  const page = (plot.view === "week" ? 1440 : 120) / step.length;
  const steps = { ArrowLeft: -1, ArrowDown: -1, ArrowRight: 1, ArrowUp: 1, PageUp: page, PageDown: -page, Home: -Infinity, End: Infinity };
  if (!(event.key in steps)) return;
  event.preventDefault();
  plot.pointed = -1;
  choose(plot.picked + steps[event.key]);
}

// Versions.

let asking = 0;
function showVersions(step) {
  clearTimeout(asking);
  byId("versions").setAttribute("aria-busy", String(Boolean(step)));
  byId("versions-of").textContent = step ? `Interval ${step.interval} of ${speak(step.date)}` : "No interval is shown.";
  if (!step) d3.select("#versions").selectAll("*").remove();
  else asking = setTimeout(() => askAndFill(step), REST / 2);
}

async function askAndFill(step) {
  try {
    const versions = (await askVersions(plot.stream, step)).versions.slice().reverse();
    if (step !== plot.steps[plot.picked]) return;
    const current = currentOf(step, versions);
    step.update = current?.[0] ?? "";
    fillTable("#versions", ["Current", "Update", "Value", "Quality", "Reason", "Minutes"], versions.map((version) => {
      const [update, quality, code, text, value, length] = version;
      return [version === current ? "current \u25B6" : "", moment(update), value || "none", tellQuality(quality), tellReason(code, text), length];
    }), [2, 5], [3, 4]);
    d3.selectAll("#versions tbody tr").data(versions)
      .attr({ "data-version": (version) => JSON.stringify(version), "aria-current": (version) => (version === current ? "true" : null) });
    byId("plot").setAttribute("aria-valuetext", linesOf(step).filter(Boolean).join(", "));
    showTooltip();
  } catch (fault) {
    if (step === plot.steps[plot.picked]) say(fault);
  } finally {
    if (step === plot.steps[plot.picked]) byId("versions").setAttribute("aria-busy", "false");
  }
}

// A table of texts. Some columns have numbers, and those of longer texts break lines.
function fillTable(selector, names, rows, numbers, texts) {
  const table = d3.select(selector);
  const kind = (_, k) => (numbers.includes(k) ? "number" : texts.includes(k) ? "text" : null);
  table.selectAll("*").remove();
  table.append("thead").append("tr").selectAll("th").data(names).enter().append("th").attr({ scope: "col", class: kind }).text((name) => name);
  table.append("tbody").selectAll("tr").data(rows).enter().append("tr")
    .selectAll("td").data((row) => row).enter().append("td").attr("class", kind).text((text) => text);
}

// The table of a day has its intervals, and that of a week its days.
function fillReadings() {
  if (!byId("readings").open) return;
  if (plot.view === "day") {
    fillTable("#readings table", ["Interval", "From", "To", "Value", "Quality", "Reason"], plot.steps.map((step) =>
      [step.interval, clock(step.begin), clock(step.begin + step.length), step.value ? `${step.value} ${step.unit}` : "none",
        tellQuality(step.quality), tellReason(step.code, step.text)]), [0, 3], [5]);
  } else {
    const tellRun = (run) => `${run[0].interval} to ${run[run.length - 1].interval} ${run.key}`;
    fillTable("#readings table", ["Day", "Minutes", "Sum", "Intervals"], plot.days.map((day) =>
      [speak(day.date), day.length, `${sumOf(day.readings.map((reading) => reading[3]))} ${day.unit}`,
        stretches(day.steps, (step) => step.quality).map(tellRun).join(", ")]), [1, 2], [3]);
  }
}

// The export.

function fillExport() {
  const form = byId("export");
  form.elements.from.value = toInput(plot.dates[0]);
  form.elements.to.value = toInput(plot.dates[plot.dates.length - 1]);
  const suffixes = streams.filter((stream) => stream.nmi === plot.stream.nmi).map((stream) => stream.suffix);
  const labels = d3.select("#suffixes").selectAll("label").data(suffixes, (suffix) => plot.stream.nmi + suffix);
  const added = labels.enter().append("label");
  added.append("input").attr({ type: "checkbox", name: "suffix", value: (suffix) => suffix }).property("checked", true);
  added.append("span").text((suffix) => ` ${suffix}`);
  labels.exit().remove();
}

async function saveExport(event) {
  event.preventDefault();
  if (!plot.stream) return;
  const data = new FormData(event.target);
  const [from, to] = [fromInput(data.get("from")), fromInput(data.get("to"))];
  const status = byId("export-status");
  try {
    const text = await fetchText(exportPath(plot.stream.nmi, data.getAll("suffix"), from, to, data.get("sender"), data.get("receiver")));
    const link = document.createElement("a");
    link.href = URL.createObjectURL(new Blob([text], { type: "text/csv" }));
    link.download = `${plot.stream.nmi}_${from}_${to}.nem12.csv`;
    link.click();
    setTimeout(() => URL.revokeObjectURL(link.href), 60000);
    status.textContent = `${link.download}: ${text.split("\r\n").filter((line) => line.startsWith("300,")).length} days`;
  } catch (fault) {
    status.textContent = fault.message;
  }
}

// What its user does.

// Moves a field's day by so many days.
function moveBy(field, count, changes) {
  const date = fromInput(byId(field).value);
  if (isDate(date)) go({ ...changes, [field]: addDays(date, count), interval: null });
}

const moveDate = (count) => moveBy("date", plot.view === "week" ? 7 * count : count, {});
const moveCalendar = (count) => moveBy("until", count, { date: null });

function refresh() {
  answers.clear();
  streams.length = 0;
  Object.assign(calendar, { key: "", stream: null });
  show();
}

function listen() {
  const on = (id, event, action) => byId(id).addEventListener(event, action);
  const goIf = (input, changes) => input.value && go(changes(fromInput(input.value)));
  on("filter", "input", () => showStreams(place().stream));
  on("refresh", "click", refresh);
  on("until", "change", (event) => goIf(event.target, (until) => ({ until, date: null, interval: null })));
  on("earlier", "click", () => moveCalendar(-MOST_DAYS));
  on("later", "click", () => moveCalendar(MOST_DAYS));
  on("calendar", "keydown", calendarKey);
  on("date", "change", (event) => goIf(event.target, (date) => ({ date, interval: null })));
  on("before", "click", () => moveDate(-1));
  on("after", "click", () => moveDate(1));
  on("behind", "change", (event) => go({ behind: event.target.value }));
  for (const input of document.querySelectorAll("input[name=view]")) input.addEventListener("change", () => go({ view: input.value }));
  on("plot", "keydown", plotKey);
  on("plot", "pointermove", (event) => plot.x && point(indexAt(event)));
  on("plot", "pointerleave", () => point(-1));
  on("plot", "click", (event) => plot.x && indexAt(event) >= 0 && choose(indexAt(event)));
  on("plot", "focus", showTooltip);
  on("plot", "blur", showTooltip);
  on("readings", "toggle", fillReadings);
  on("export", "submit", saveExport);
  addEventListener("popstate", show);
  let width = 0;
  new ResizeObserver(() => {
    if (!plot.x || byId("plot").clientWidth === width) return;
    width = byId("plot").clientWidth;
    drawPlot();
    pick(plot.picked);
  }).observe(byId("plot"));
}

listen();
show();
