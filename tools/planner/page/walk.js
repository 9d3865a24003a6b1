// Going through the moves: list, slider, keys, address, and what is shown of the chosen one.
const $ = (id) => document.getElementById(id);
const items = [...document.querySelectorAll("#stops > .stop")];
const refusals = data.stops.map((stop, place) => place).filter((place) => refusedAt(place));
const COLUMN = 250;
let now = 0, link = -1, scene = null;

function refusedAt(place) {
  const step = data.stops[place].step;
  return step !== null && data.steps[step].answer !== ACCEPTED;
}

function chainNow() {
  return (scene && scene.step && scene.step.chain) || [];
}

// Chooses a stop, and of its chain a link or none.
function choose(place, one = -1) {
  now = Math.min(Math.max(place, 0), data.stops.length - 1);
  scene = sceneAt(data.stops[now]);
  link = one < chainNow().length ? one : -1;
  mark();
  say();
  draw();
  remember();
}

// The list and the slider.
function mark() {
  const inList = $("stops").contains(document.activeElement);
  for (const item of document.querySelectorAll(".stop.chosen")) markItem(item, false);
  markItem(items[now], true);
  const line = items[now].querySelectorAll(".link")[link], target = line || items[now].firstElementChild;
  if (inList) target.focus({ preventScroll: true });
  (line || items[now]).scrollIntoView({ block: "nearest" });
  $("slider").value = String(now);
  $("slider").setAttribute("aria-valuetext", wordsOf(now));
}

function markItem(item, chosen) {
  item.classList.toggle("chosen", chosen);
  item.firstElementChild.tabIndex = chosen ? 0 : -1;
  if (chosen) item.firstElementChild.setAttribute("aria-current", "step");
  else item.firstElementChild.removeAttribute("aria-current");
  item.querySelectorAll(".link").forEach((node, number) => {
    node.tabIndex = chosen ? 0 : -1;
    node.setAttribute("aria-pressed", String(chosen && number === link));
  });
}

function wordsOf(place) {
  return [...items[place].querySelectorAll(".row, .words, .verdict")].map((one) => one.textContent).join(", ");
}

// The words over the picture; they are also read out where neither the list nor the slider says them.
function say() {
  const step = scene.step, row = items[now].querySelector(".row");
  $("shown").textContent = row ? row.textContent + ": " + items[now].querySelector(".words").textContent
    : "Before the visit";
  $("said").textContent = step === null ? items[now].querySelector(".words").textContent + "."
    : step.answer === ACCEPTED ? "Accepted. Shown as things stand after this move."
      : AFTERWARDS.includes(step.answer) && step.chain ? "Refused. Shown as it would be after this move."
        : "Refused, so nothing changes. Shown as things stand.";
  $("state").classList.toggle("is-refused", step !== null && step.answer !== ACCEPTED);
  const focus = document.activeElement;
  if (focus === $("slider") || $("stops").contains(focus)) return;
  const line = items[now].querySelectorAll(".link")[link];
  $("live").textContent = line ? line.textContent : wordsOf(now);
}

// The picture, the arrows over it, and the line through the timeline.
function draw() {
  const picture = $("picture"), held = document.activeElement && document.activeElement.id;
  const room = Math.max(1, Math.floor(picture.clientWidth / COLUMN));
  picture.style.gridTemplateColumns = `repeat(${room}, minmax(0, 1fr))`;
  picture.replaceChildren(...drawPicture(scene, $("fold").checked, room));
  if (held && held.startsWith("owner-") && $(held)) $(held).focus({ preventScroll: true });
  drawArrows();
  const first = data.stops.findIndex((stop) => stop.step === null), count = data.stops.length - first;
  $("tracks").style.setProperty("--at", 100 * (Math.max(now - first, 0) + 0.5) / count + "%");
}

function drawArrows() {
  const picture = $("picture"), old = picture.querySelector(".arrows");
  if (old) old.remove();
  if (!chainNow().length) return;
  markLink(picture, chainNow(), link);
  picture.append(drawChain(picture, chainNow(), link));
  const goal = picture.querySelector(".object.chosen");
  if (goal) goal.scrollIntoView({ block: "nearest", inline: "nearest" });
}

function remember() {
  const key = data.stops[now].key + (link < 0 ? "" : "-link-" + (link + 1));
  try {
    history.replaceState(null, "", "#" + key);
  } catch (fault) {
    // An address that may not be changed is no reason to stop.
  }
}

// The stop and link in the page's address; without one, the first cause, or else the beginning.
function fromAddress() {
  const found = /^#(.+?)(?:-link-(\d+))?$/.exec(location.hash) || [];
  const place = data.stops.findIndex((stop) => stop.key === found[1]);
  const cause = items.findIndex((item) => item.classList.contains("cause"));
  choose(place >= 0 ? place : Math.max(cause, 0), place >= 0 && found[2] ? Number(found[2]) - 1 : -1);
}

function nextRefusal(way) {
  const rest = way > 0 ? refusals.filter((place) => place > now) : refusals.filter((place) => place < now).reverse();
  if (rest.length) choose(rest[0]);
}

const STEPS = { ArrowRight: 1, ArrowLeft: -1, ArrowDown: 1, ArrowUp: -1, PageDown: 10, PageUp: -10 };

// In the picture's part the keys that scroll keep doing so.
function onKey(event) {
  if (event.ctrlKey || event.altKey || event.metaKey) return;
  const { key, shiftKey } = event, scrolls = document.querySelector(".view").contains(document.activeElement);
  let used = true;
  if (shiftKey && (key === "ArrowDown" || key === "ArrowUp")) chooseLink(STEPS[key]);
  else if (key === "ArrowRight" || key === "ArrowLeft") choose(now + STEPS[key]);
  else if (key === "n") nextRefusal(1);
  else if (key === "p") nextRefusal(-1);
  else if (key === "Escape" && link >= 0) choose(now);
  else if (scrolls) used = false;
  else if (key in STEPS) choose(now + STEPS[key]);
  else if (key === "Home") choose(0);
  else if (key === "End") choose(data.stops.length - 1);
  else used = false;
  if (used) event.preventDefault();
}

function chooseLink(way) {
  const count = chainNow().length;
  if (count) choose(now, Math.min(Math.max(link + way, 0), count - 1));
}

function onList(event) {
  const item = event.target.closest(".stop"), line = event.target.closest(".link");
  if (!item || !event.target.closest("button")) return;
  const place = items.indexOf(item), one = line ? [...item.querySelectorAll(".link")].indexOf(line) : -1;
  choose(place, place === now && one === link ? -1 : one);
}

function onPicture(event) {
  const badge = event.target.closest(".badge"), owner = event.target.closest(".owner");
  if (badge) choose(now, Number(badge.dataset.link) === link ? -1 : Number(badge.dataset.link));
  else if (owner) {
    const key = owner.dataset.group;
    if (!flipped.delete(key)) flipped.add(key);
    draw();
  }
}

function setTheme(name) {
  document.documentElement.dataset.theme = name;
  $("theme").textContent = name === "dark" ? "Light" : "Dark";
  keep("theme", name);
}

// What was chosen is kept while the page is open, also when it is loaded again; where that is not allowed, it is not.
function keep(key, value) {
  try {
    sessionStorage.setItem(key, value);
  } catch (fault) {
    // Nothing is kept.
  }
}

function kept(key, otherwise) {
  try {
    return sessionStorage.getItem(key) || otherwise;
  } catch (fault) {
    return otherwise;
  }
}

// A page that is made anew whenever a table is saved is loaded again when the planner comes back to it.
function loadAgain() {
  let away = false;
  window.addEventListener("blur", () => { away = true; });
  window.addEventListener("focus", () => { if (away) location.reload(); });
}

function onFold() {
  flipped.clear();
  keep("fold", $("fold").checked ? "yes" : "no");
  draw();
}

function theme() {
  return document.documentElement.dataset.theme;
}

function openAll() {
  for (const one of document.querySelectorAll("details")) one.open = true;
}

function begin() {
  $("slider").max = String(data.stops.length - 1);
  for (const place of refusals) {
    const tick = make("i", "tick");
    tick.style.setProperty("--at", String(place / Math.max(data.stops.length - 1, 1)));
    $("ticks").append(tick);
  }
  for (const id of ["walk", "theme", "fold-label", "legend", "keys"]) $(id).hidden = false;
  $("next").disabled = !refusals.length;
  $("fold").checked = kept("fold", data.objects.length > MUCH ? "yes" : "no") === "yes";
  setTheme(kept("theme", window.matchMedia("(prefers-color-scheme: dark)").matches ? "dark" : "light"));
  $("slider").addEventListener("input", () => choose(Number($("slider").value)));
  $("back").addEventListener("click", () => choose(now - 1));
  $("on").addEventListener("click", () => choose(now + 1));
  $("next").addEventListener("click", () => nextRefusal(1));
  $("fold").addEventListener("change", onFold);
  $("theme").addEventListener("click", () => setTheme(theme() === "dark" ? "light" : "dark"));
  $("stops").addEventListener("click", onList);
  $("picture").addEventListener("click", onPicture);
  document.addEventListener("keydown", onKey);
  window.addEventListener("hashchange", fromAddress);
  window.addEventListener("resize", draw);
  window.addEventListener("beforeprint", openAll);
  if ("watched" in document.documentElement.dataset) loadAgain();
  document.documentElement.classList.add("walks");
  fromAddress();
}

begin();
