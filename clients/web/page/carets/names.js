/** Names of carets stand to the right of them, or to the left in the right half of an editor: so none is cut off. */

/** @param {import("prosemirror-view").EditorView} view */
export function turnNames({ dom }) {
  let frame;
  const turn = () => {
    frame = undefined;
    for (const caret of dom.querySelectorAll(".caret")) caret.classList.toggle("turned", caret.offsetLeft > dom.clientWidth / 2);
  };
  // The browser lays the page out in each frame anyway.
  const turnSoon = () => (frame ??= requestAnimationFrame(turn));
  const observer = new ResizeObserver(turnSoon);
  observer.observe(dom);
  return { update: turnSoon, destroy: () => observer.disconnect() };
}
