// Puts in what changes, part by part, and says how old it is. Without this the page is the same, and loads itself anew.
"use strict";
(() => {
  const isStill = "still" in document.documentElement.dataset;
  // Milliseconds: without a word for so long the server is not there; so long until the next try.
  const LOST = 5000, AGAIN = 3000;
  let heardAt = performance.now();

  function span(seconds) {
    for (const [size, name, part, small] of [[86400, "d", 3600, "h"], [3600, "h", 60, "min"], [60, "min", 1, "s"]])
      if (seconds >= size)
        return `${Math.floor(seconds / size)} ${name} ${Math.floor(seconds % size / part)} ${small}`;
    return `${seconds} s`;
  }

  function tick() {
    const quiet = performance.now() - heardAt, old = document.getElementById("old");
    if (old) old.textContent = span(Number(old.dataset.old) + Math.floor(quiet / 1000));
    document.getElementById("lost").hidden = isStill || quiet < LOST;
  }

  // Lays places for the modules that there are now, in their order; a restart may have others.
  function lay(ids, isFew) {
    const list = document.querySelector(".modules");
    for (const each of [...list.children]) if (!ids.includes(each.id)) each.remove();
    ids.forEach((id, at) => {
      const there = list.children[at];
      if (!there || there.id !== id) list.insertBefore(Object.assign(document.createElement("li"), {id}), there || null);
    });
    document.getElementById("no-module").hidden = ids.length > 0;
    document.querySelector(".columns").classList.toggle("few", isFew);
  }

  function take(parts) {
    heardAt = performance.now();
    if (parts.modules) lay(parts.modules.ids, parts.modules.few);
    delete parts.modules;
    // Where the page is one of another version than its server.
    if (Object.keys(parts).some(id => !document.getElementById(id))) return location.reload();
    // The server has escaped all that it puts in here.
    for (const [id, text] of Object.entries(parts)) document.getElementById(id).innerHTML = text;
    tick();
  }

  function listen() {
    const source = new EventSource("events");
    source.onmessage = event => take(JSON.parse(event.data));
    source.onerror = () => {
      if (source.readyState === EventSource.CLOSED) setTimeout(listen, AGAIN);
    };
  }

  setInterval(tick, 1000);
  if (!isStill) listen();
})();
