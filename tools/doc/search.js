// The search box: looks names and titles up in an index that is loaded when the box is first used. All else works without this file.
(function () {
  "use strict";
  var own = document.currentScript, root = own.getAttribute("src").replace(/search\.js$/, "");
  var form = document.querySelector("form[role=search]"), box = form.querySelector("input"), list = form.querySelector("ol");
  form.hidden = false;

  function load() {
    box.removeEventListener("focus", load);
    var script = document.createElement("script");
    script.src = own.dataset.index;
    script.onload = show;
    document.head.appendChild(script);
  }

  // How well an entry fits: 0 is best, and -1 doesn't fit. Each word must stand in its name or in what is said of it.
  function rank(entry, words) {
    var name = entry[0].toLowerCase(), about = (entry[1] + " " + entry[4]).toLowerCase(), last = name.split(/[.:]+/).pop(), whole = words.join(" ");
    if (!words.every(function (word) { return name.includes(word) || about.includes(word); })) return -1;
    if (name === whole || last === whole) return 0;
    if (last.startsWith(whole)) return 1;
    if (name.includes(whole)) return 2;
    return words.every(function (word) { return name.includes(word); }) ? 3 : 4;
  }

  function show() {
    var words = box.value.toLowerCase().replace(/::/g, ".").split(/\s+/).filter(Boolean), index = window.searchIndex;
    list.textContent = "";
    if (!index || !words.length) return;
    var found = [];
    index.entries.forEach(function (entry, at) {
      var fits = rank(entry, words);
      if (fits >= 0) found.push([fits, entry[0].length, at]);
    });
    found.sort(function (a, b) { return a[0] - b[0] || a[1] - b[1] || a[2] - b[2]; });
    found.slice(0, 40).forEach(function (row) { list.appendChild(line(index, index.entries[row[2]])); });
    if (!found.length) list.appendChild(document.createElement("li")).textContent = "Nothing has this name.";
  }

  function line(index, entry) {
    var row = document.createElement("li"), link = row.appendChild(document.createElement("a"));
    link.href = root + index.pages[entry[2]] + (entry[3] ? "#" + encodeURIComponent(entry[3]) : "");
    link.appendChild(document.createElement("b")).textContent = entry[0];
    link.appendChild(document.createElement("i")).textContent = " " + entry[1];
    link.appendChild(document.createElement("span")).textContent = entry[4];
    return row;
  }

  box.addEventListener("focus", load);
  box.addEventListener("input", show);
  form.addEventListener("submit", function (event) {
    event.preventDefault();
    var first = list.querySelector("a");
    if (first) location.href = first.href;
  });
  form.addEventListener("keydown", function (event) {
    var step = { ArrowDown: 1, ArrowUp: -1 }[event.key], links = [box].concat(Array.from(list.querySelectorAll("a")));
    if (event.key === "Escape") { box.value = ""; show(); box.focus(); }
    if (!step) return;
    event.preventDefault();
    links[Math.max(0, Math.min(links.length - 1, links.indexOf(document.activeElement) + step))].focus();
  });
  document.addEventListener("click", function (event) { if (!form.contains(event.target)) list.textContent = ""; });
})();
