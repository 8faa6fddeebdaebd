// What is shown where the mouse rests: an event, its reply, what it waits for; all that belongs to
// the same ticket is lit up.
const tip = document.getElementById("tip");
const marked = [...document.querySelectorAll("[data-ticket]")];
for (const shape of document.querySelectorAll("svg [data-ticket]")) {
  const title = shape.querySelector("title");
  if (title) {
    shape.dataset.tip = title.textContent;
    title.remove();
  }
}
const show = (event) => {
  const shape = event.target.closest("[data-ticket]");
  for (const each of marked) {
    each.classList.toggle("lit", !!shape && each.dataset.ticket === shape.dataset.ticket);
  }
  tip.hidden = !shape || !shape.dataset.tip;
  if (tip.hidden) return;
  tip.textContent = shape.dataset.tip;
  const right = document.documentElement.clientWidth - tip.offsetWidth - 8;
  const below = event.clientY + 16;
  const over = event.clientY - tip.offsetHeight - 12;
  tip.style.left = Math.max(8, Math.min(event.clientX + 14, right)) + "px";
  tip.style.top = (below + tip.offsetHeight < innerHeight ? below : Math.max(8, over)) + "px";
};
document.addEventListener("pointerover", show);
document.addEventListener("pointerdown", show);
