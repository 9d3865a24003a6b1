// A chain's arrows, over the picture: from the descriptor that a card reads to what its entry names.
const SVG = "http://www.w3.org/2000/svg";
const BULGE = 22, INSET = 4;

function shape(name, attributes) {
  const node = document.createElementNS(SVG, name);
  for (const [key, value] of Object.entries(attributes)) node.setAttribute(key, value);
  return node;
}

function arrowHead() {
  const marker = shape("marker", { id: "tip", viewBox: "0 0 10 10", refX: 9, refY: 5, markerWidth: 11, markerHeight: 11,
    markerUnits: "userSpaceOnUse", orient: "auto" });
  marker.append(shape("path", { d: "M0,0L10,5L0,10z", class: "tip" }));
  return marker;
}

// The way of an arrow between two rows: across to another column, or around the edge of the same one.
function way(from, to, place) {
  const y1 = from.top + from.height / 2, y2 = to.top + to.height / 2 + (place % 3 - 1) * 4;
  const bulge = BULGE + place % 4 * 6;
  if (Math.abs(from.left - to.left) < BULGE) {
    const x1 = from.right - INSET, x2 = to.right - INSET;
    return `M${x1},${y1}C${x1 + bulge},${y1} ${x2 + bulge},${y2} ${x2},${y2}`;
  }
  const right = to.left > from.left, x1 = right ? from.right - INSET : from.left + INSET;
  const x2 = right ? to.left + INSET : to.right - INSET, middle = (x1 + x2) / 2;
  return `M${x1},${y1}C${middle},${y1} ${middle},${y2} ${x2},${y2}`;
}

function within(node, frame) {
  const box = node.getBoundingClientRect();
  const left = box.left - frame.left, top = box.top - frame.top;
  return { left, top, right: left + box.width, height: box.height };
}

// The arrows of a chain; the chosen link is strong, the others then faint.
function drawChain(picture, chain, chosen) {
  const frame = picture.getBoundingClientRect();
  const sheet = shape("svg", { class: "arrows", width: picture.scrollWidth, height: picture.scrollHeight,
    "aria-hidden": "true" });
  sheet.append(arrowHead());
  chain.forEach((link, place) => {
    const from = picture.querySelector(`[data-object="${link.from}"]`);
    const to = picture.querySelector(`[data-object="${link.to}"]`);
    if (!link.to || !from || !to) return;
    const look = (link.mode === 1 ? "" : link.mode === 2 ? " writes" : " both") + chosenLook(chosen, place);
    const d = way(within(from, frame), within(to, frame), place);
    sheet.append(shape("path", { d, class: "halo" + chosenLook(chosen, place) }),
      shape("path", { d, class: "arrow" + look, "marker-end": "url(#tip)", "data-link": place }));
  });
  return sheet;
}

function chosenLook(chosen, place) {
  return chosen < 0 ? "" : chosen === place ? " chosen" : " faint";
}

// Marks the rows and numbers of the chosen link.
function markLink(picture, chain, chosen) {
  for (const node of picture.querySelectorAll(".badge")) {
    node.classList.toggle("chosen", Number(node.dataset.link) === chosen);
    node.classList.toggle("faint", chosen >= 0 && Number(node.dataset.link) !== chosen);
  }
  const link = chain[chosen];
  for (const node of picture.querySelectorAll(".object.on-chain")) {
    const number = Number(node.dataset.object);
    node.classList.toggle("chosen", Boolean(link) && (number === link.from || number === link.to));
    node.classList.toggle("faint", Boolean(link) && number !== link.from && number !== link.to);
  }
}
