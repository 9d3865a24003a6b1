// The partitions as columns, with drivers, cards and objects in them.
const flipped = new Set();

function make(name, look, ...inside) {
  const node = document.createElement(name);
  if (look) node.className = look;
  node.append(...inside.filter((one) => one !== null && one !== ""));
  return node;
}

function looksOf(lit, sort, number) {
  const one = lit.get(sort + " " + number);
  return one ? [...one.looks].join(" ") : "";
}

// The owners in a partition, each with its objects: drivers, cards, and external objects as one group without owner.
function groupsIn(state, partition) {
  const groups = [];
  const owned = (sort, number) => data.objects.map((one, place) => place + 1)
    .filter((n) => data.objects[n - 1][2] === sort && data.objects[n - 1][3] === number);
  for (const [sort, name, names] of [[DRIVER, "driver", data.drivers], [CARD, "card", data.cards]])
    names.forEach((text, place) => {
      const locked = sort === CARD && state.lock[place + 1] > 0, serial = sort === CARD ? data.serials[place] : "";
      if (state[name][place + 1] === partition)
        groups.push({ name, number: place + 1, text: name + " " + text, objects: owned(sort, place + 1), locked,
          serial });
    });
  const loose = owned(EXTERNAL, 0).filter((n) => state.object[n] === partition);
  if (loose.length) groups.push({ name: "external", number: partition, text: "external objects", objects: loose });
  return groups;
}

// The partitions to draw: those that exist, one that the move destroyed or failed on, and what is in none.
function columnsOf(scene) {
  const { state, lit } = scene, shown = [];
  for (const number of Object.keys(data.partitions).map(Number)) {
    const green = state.partition[number] === GREEN, there = green || state.partition[number] === PLAIN;
    if (there || lit.has("partition " + number)) shown.push({ number, there, green });
  }
  const idle = groupsIn(state, 0);
  if (idle.length || !shown.length) shown.push({ number: 0, there: true });
  return shown.map((one) => Object.assign(one, { groups: one.number ? groupsIn(state, one.number) : idle }));
}

// Short partitions that stand side by side share a slot, one over the other, where that leaves a column to a tall one.
function slotsOf(columns, room) {
  const slots = columns.map((one) => ({ columns: [one], height: one.height, span: 1 }));
  while (slots.length > 1 && slots.length >= room) {
    const tallest = Math.max(...slots.map((slot) => slot.height));
    const sums = slots.slice(1).map((slot, place) => slot.height + slots[place].height);
    const place = sums.indexOf(Math.min(...sums));
    if (sums[place] >= tallest) break;
    const [next] = slots.splice(place + 1, 1);
    slots[place].columns.push(...next.columns);
    slots[place].height = sums[place];
  }
  return slots;
}

// How many columns each slot gets of those that there is room for: one, and more for the tallest.
function share(slots, room) {
  for (let left = room - slots.length; left > 0; left -= 1) {
    const tall = slots.reduce((most, one) => one.height / one.span > most.height / most.span ? one : most);
    if (Math.max(...tall.columns.map((one) => one.groups.length)) <= tall.span) break;
    tall.span += 1;
  }
}

function drawPicture(scene, fold, room) {
  const columns = columnsOf(scene);
  for (const one of columns)
    one.height = 2 + one.groups.reduce((sum, group) => sum + 1.6 + shownObjects(scene, group, fold).length, 0);
  const slots = slotsOf(columns, room);
  share(slots, room);
  return slots.map((slot) => {
    const node = make("div", "slot", ...slot.columns.map((one) => drawPartition(scene, one, fold, slot.span)));
    node.style.gridColumn = "span " + slot.span;
    return node;
  });
}

function drawPartition(scene, column, fold, span) {
  const { number, there, green, groups } = column;
  const name = number ? data.partitions[number] : "In no partition";
  const look = ["partition", green ? "green" : number ? "tint" + (number % 6) : "idle",
    looksOf(scene.lit, "partition", number), there ? "" : "ghost"].join(" ");
  const named = number && name !== "partition " + number ? "partition " + number : number ? "" : "inactive";
  const words = [green ? "green zone" : "", named].filter(Boolean).join(", ");
  const head = make("h3", "", make("span", "", name), words ? make("small", "", words) : "");
  const notes = notesOf(scene.lit.get("partition " + number));
  const inside = make("div", "groups", ...groups.map((group) => drawGroup(scene, group, fold)));
  const empty = groups.length ? "" : make("p", "empty", there ? "empty" : "is not there");
  const node = make("section", look, head, ...notes, empty, inside);
  node.setAttribute("aria-label", number ? "Partition " + name : name);
  inside.style.columnCount = String(Math.min(span, Math.max(groups.length, 1)));
  return node;
}

function isOpen(group, fold) {
  return flipped.has(group.name + " " + group.number) ? fold : !fold;
}

function shownObjects(scene, group, fold) {
  return isOpen(group, fold) ? group.objects : group.objects.filter((n) => scene.lit.has("object " + n));
}

function drawGroup(scene, group, fold) {
  const shown = shownObjects(scene, group, fold), open = isOpen(group, fold);
  const count = group.objects.length + (group.objects.length === 1 ? " object" : " objects");
  const padlock = group.locked ? make("span", "padlock", "locked") : "";
  const serial = group.serial ? [" ", make("span", "serial", group.serial)] : [];
  const who = make("span", "who", make("span", "name", group.text), ...serial);
  const owner = make("button", "owner", who, padlock, make("span", "count", count));
  owner.type = "button";
  owner.id = "owner-" + group.name + "-" + group.number;
  owner.setAttribute("aria-expanded", String(open));
  owner.dataset.group = group.name + " " + group.number;
  const one = scene.lit.get(group.name + " " + group.number);
  const rows = make("ul", "", ...shown.map((n) => drawObject(scene, n)));
  return make("div", "group " + group.name + " " + looksOf(scene.lit, group.name, group.number), owner,
    ...notesOf(one), shown.length ? rows : "");
}

function drawObject(scene, number) {
  const [name, kind] = data.objects[number - 1], one = scene.lit.get("object " + number);
  const mark = make("abbr", "kind", KINDS[kind]);
  mark.title = KIND_WORDS[kind];
  const held = data.words[scene.state.holds[number]];
  const row = make("li", "object " + looksOf(scene.lit, "object", number), mark, make("span", "name", name),
    make("span", held === "cleared" ? "held none" : "held", held, ...badgesOf(one)), ...notesOf(one));
  row.dataset.object = String(number);
  return row;
}

function notesOf(one) {
  if (!one) return [];
  const notes = one.notes.map((note) => make("span", "note", note));
  return one.looks.has("failed") ? notes.concat(make("span", "note fault", "it failed on this")) : notes;
}

function badgesOf(one) {
  if (!one || !one.links.length) return [];
  const box = make("span", "badges", ...one.links.map((place) => {
    const badge = make("b", "badge", String(place + 1));
    badge.dataset.link = String(place);
    return badge;
  }));
  box.setAttribute("role", "img");
  box.setAttribute("aria-label", "link " + one.links.map((place) => place + 1).join(", "));
  return [box];
}
