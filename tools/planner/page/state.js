// The plan's data, and the states that its moves lead to. Nothing here judges: an accepted move's settings are applied.
const data = JSON.parse(document.getElementById("data").textContent);
const ACCEPTED = 0, AFTERWARDS = data.afterwards;
const PLAIN = data.standings.plain, GREEN = data.standings.green;
const EXTERNAL = 0, DRIVER = 1, CARD = 2;
const KINDS = ["", "T", "F", "D", "H"];
const KIND_WORDS = ["", "transfer descriptor", "function descriptor", "data", "hard-wired descriptor"];
const MUCH = 40;

function fresh() {
  const none = (count) => new Array(count + 1).fill(0);
  return {
    partition: {}, driver: none(data.drivers.length), card: none(data.cards.length), lock: none(data.cards.length),
    object: none(data.objects.length), holds: [0].concat(data.held),
  };
}

function apply(state, step) {
  for (const [sort, number, value] of step.set) state[sort][number] = value;
}

// The state after so many moves, of which the refused ones changed nothing.
function stateAfter(count) {
  const state = fresh();
  for (const step of data.steps.slice(0, count)) if (step.answer === ACCEPTED) apply(state, step);
  return state;
}

function placeWords(partition) {
  return partition ? data.partitions[partition] : "no partition";
}

// What is shown at a stop: the state, and what is lit in it, with a note for each. A refusal by 19 or 21 is shown as
// it would be after the move, every other refusal as things stand before it.
function sceneAt(stop) {
  if (stop.step === null) return { state: stateAfter(stop.done), lit: new Map(), step: null };
  const step = data.steps[stop.step], before = stateAfter(stop.step), state = stateAfter(stop.step);
  apply(state, step);
  const lit = new Map();
  lightSettings(lit, step, before, state);
  for (const [sort, number] of step.failed || []) light(lit, sortName(sort), number, "failed");
  (step.chain || []).forEach((link, place) => lightLink(lit, link, place));
  return { state, lit, step };
}

// What a finding calls a driver or a card, by its class.
function sortName(sort) {
  return sort === DRIVER ? "driver" : sort === CARD ? "card" : sort;
}

function light(lit, sort, number, look, note) {
  const key = sort + " " + number;
  const one = lit.get(key) || { looks: new Set(), notes: [], links: [] };
  one.looks.add(look);
  if (note) one.notes.push(note);
  lit.set(key, one);
  return one;
}

function lightSettings(lit, step, before, state) {
  const look = step.answer === ACCEPTED ? "changed" : "would";
  for (const [sort, number, value] of step.set) {
    const old = before[sort][number];
    if (sort === "partition")
      light(lit, sort, number, look, standingWords(value));
    else if (sort === "driver" || sort === "card") light(lit, sort, number, look, movedWords(old, value));
    else if (sort === "lock") light(lit, "card", number, look, (value ? "locked" : "unlocked") + " by this move");
    else if (sort === "object" && data.objects[number - 1][2] === EXTERNAL)
      light(lit, "object", number, look, movedWords(old, value));
    else if (sort === "holds") light(lit, "object", number, look, heldWords(look, old, value));
  }
  for (const number of step.read || []) light(lit, "object", number, "changed", "read by this move");
}

function standingWords(value) {
  if (value === GREEN) return "created by this move as a green zone";
  return value === PLAIN ? "created by this move" : "destroyed by this move";
}

function movedWords(old, value) {
  if (old && value) return "came from " + placeWords(old);
  return old ? "left " + placeWords(old) : "brought in by this move";
}

function heldWords(look, old, value) {
  if (old === value) return look === "would" ? "would be written again" : "written again";
  return (look === "would" ? "now: " : "was: ") + data.words[old];
}

// A link is told at the row that it leads to; the first link of a card at the card's hard-wired descriptor.
function lightLink(lit, link, place) {
  const one = light(lit, "object", link.to || link.from, "on-chain");
  one.links.push(place);
  if (link.put) one.notes.push("could become: " + link.put);
  light(lit, "card", link.card, "on-chain");
  light(lit, "object", link.from, "on-chain");
}
