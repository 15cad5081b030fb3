// The cases of a suite: a list of those that did not pass, and of the chosen one what differs, by the page of a comparison.
const data = JSON.parse(document.getElementById("data").textContent);
const list = document.getElementById("cases");
const shown = document.getElementById("shown");
const all = document.getElementById("all");
const named = document.getElementById("name");
let chosen = null;

function make(kind, text, classes = "") {
  const made = document.createElement(kind);
  made.textContent = text;
  made.className = classes;
  return made;
}

function escaped(text) {
  const made = document.createElement("i");
  made.textContent = text;
  return made.innerHTML;
}

// the page of a case's comparison; a piece that is put in is not looked at again
function comparison(one) {
  const pieces = { "@@title@@": escaped(one.name), "@@data@@": JSON.stringify(one.shown).replaceAll("<", "\\u003c") };
  return data.page.replace(/@@(title|data)@@/g, (mark) => pieces[mark]);
}

function show(one) {
  chosen = one;
  history.replaceState(null, "", `#${encodeURIComponent(one.name)}`);
  shown.replaceChildren(make("h2", `${one.name}: ${one.verdict}, ${one.seconds} s`), make("pre", one.said.join("\n")));
  if (one.shown) {
    const frame = document.createElement("iframe");
    frame.title = `What differs in ${one.name}`;
    frame.srcdoc = comparison(one);
    shown.append(frame);
  }
  for (const button of list.querySelectorAll("button")) {
    button.setAttribute("aria-current", String(button.dataset.name === one.name));
  }
}

function button(one) {
  const made = make("button", one.name);
  made.type = "button";
  made.dataset.name = one.name;
  made.setAttribute("aria-current", String(one === chosen));
  made.prepend(make("span", one.verdict, one.good ? "mark good" : "mark"));
  made.addEventListener("click", () => show(one));
  const item = document.createElement("li");
  item.append(made);
  return item;
}

function fill() {
  const cases = data.cases.filter((one) => (all.checked || !one.good) && one.name.includes(named.value));
  list.replaceChildren(...cases.map(button));
}

all.checked = data.cases.every((one) => one.good);
all.addEventListener("change", fill);
named.addEventListener("input", fill);
fill();
const wanted = decodeURIComponent(location.hash.slice(1));
const first = data.cases.find((one) => one.name === wanted) ?? data.cases.find((one) => !one.good);
if (first) {
  show(first);
} else {
  shown.append(make("p", "Each case gave what it must give."));
}
