"use strict";
// A pair is chosen by a click, or by the keyboard as any button; Escape leaves it.
const pairs = [...document.querySelectorAll("button.pair")];
function choose(pair) {
  for (const other of pairs) {
    const chosen = other === pair;
    other.setAttribute("aria-pressed", chosen);
    const key = other.dataset.pair;
    document.querySelector(`span.pair[data-pair="${key}"]`)?.classList.toggle("other-end", chosen);
    const reason = document.getElementById(`reason-${key}`);
    if (reason) reason.hidden = !chosen;
  }
  for (const node of document.querySelectorAll("svg .marked")) node.classList.remove("marked");
  if (!pair) return;
  const node = document.getElementById(`node-${pair.dataset.node}`);
  node?.classList.add("marked");
  // Within the drawing only: the text and the reason stay where they are.
  const drawing = node?.closest(".drawing");
  if (!drawing) return;
  const [inner, outer] = [node, drawing].map((part) => part.getBoundingClientRect());
  drawing.scrollLeft += inner.left + inner.width / 2 - outer.left - outer.width / 2;
}
for (const pair of pairs) {
  pair.addEventListener("click", () => choose(pair.getAttribute("aria-pressed") === "true" ? null : pair));
}
document.addEventListener("keydown", (event) => {
  if (event.key === "Escape") choose(null);
});
