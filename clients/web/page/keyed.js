/** A list of elements, each with a key: one that stays is left as it is, since it may have the focus or be about to be clicked. */

/**
 * Has a place hold an element for each key, in their order.
 * @param {HTMLElement} place
 * @param {string[]} keys
 * @param {(key: string) => HTMLElement} make
 * @returns {HTMLElement[]}
 */
export function keepKeyed(place, keys, make) {
  const known = new Map([...place.children].map((element) => [element.dataset.key, element]));
  const wanted = keys.map((key) => known.get(key) ?? keyed(make(key), key));
  for (const element of known.values()) if (!wanted.includes(element)) element.remove();
  wanted.forEach((element, index) => {
    if (place.children[index] !== element) place.insertBefore(element, place.children[index] ?? null);
  });
  return wanted;
}

function keyed(element, key) {
  element.dataset.key = key;
  return element;
}
