// A search over the names of the book (names.js), and what is folded is opened before it is printed.
const box = document.getElementById("search");
const found = document.getElementById("found");
const MOST = 40;

// How well a name fits: 0 is best, and nothing does not fit.
function fit([name], wanted) {
  const text = name.toLowerCase();
  const at = text.indexOf(wanted);
  if (at < 0) return undefined;
  if (text === "fp" + wanted) return 0;
  if (text === wanted) return 1;
  return at === 0 ? 2 : 3;
}

function show() {
  const wanted = box.value.trim().toLowerCase().replace(/ /g, "_");
  const hits = wanted ? NAMES.map((row) => [fit(row, wanted), row]).filter((hit) => hit[0] !== undefined) : [];
  hits.sort((a, b) => a[0] - b[0] || a[1][0].length - b[1][0].length || a[1][0].localeCompare(b[1][0]));
  found.replaceChildren(...hits.slice(0, MOST).map(([, row], place) => item(row, place)));
  found.hidden = !wanted;
  if (wanted && !hits.length) found.textContent = "No such name";
}

function item([name, what, href], place) {
  const link = document.createElement("a");
  const small = document.createElement("small");
  const row = document.createElement("li");
  link.href = href;
  link.textContent = name;
  small.textContent = what;
  link.append(small);
  row.append(link);
  if (place === 0) row.className = "first";
  return row;
}

box.addEventListener("input", show);
box.form.addEventListener("submit", (event) => {
  event.preventDefault();
  const first = found.querySelector("a");
  if (first) first.click();
});
document.addEventListener("keydown", (event) => {
  if (event.key === "/" && document.activeElement !== box) {
    event.preventDefault();
    box.focus();
  } else if (event.key === "Escape") {
    found.hidden = true;
  } else if (["ArrowDown", "ArrowUp"].includes(event.key) && !found.hidden && found.querySelector("a")) {
    event.preventDefault();
    const links = [...found.querySelectorAll("a")];
    const at = links.indexOf(document.activeElement) + (event.key === "ArrowDown" ? 1 : -1);
    (links[at] || box).focus();
  }
});
document.addEventListener("click", (event) => {
  if (!box.form.contains(event.target)) found.hidden = true;
  if (event.target.closest("#found a")) found.hidden = true;
});
addEventListener("beforeprint", () => document.querySelectorAll("details").forEach((one) => { one.open = true; }));
