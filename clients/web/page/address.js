/** The addresses of links. */

/** How many bytes of an address the program holds. */
const MOST = 1_024;

const SCHEME = /^(https?|mailto):/i;
const MAIL = /^[^\s@:/?#]+@[^\s@:/?#]+\.[^\s@:/?#]+$/;

/** A host, with a dot in its name, and what may come after it. */
const HOST = /^([\p{L}\p{N}-]+(\.[\p{L}\p{N}-]+)+\.?|localhost)(:\d+)?([/?#]|$)/iu;

/** Only what is meant to be opened is a link; a script isn't. */
export function isLink(href) {
  return SCHEME.test(href ?? "") && new TextEncoder().encode(href).length <= MOST;
}

/**
 * The whole address for what somebody typed, or nothing. Relative ones aren't taken: they would lead elsewhere on each
 * page that shows the document.
 * @param {string} typed
 */
export function addressOf(typed) {
  const address = withScheme(typed.trim());
  return isLink(address) && URL.canParse(address) ? address : undefined;
}

/** @param {string} text */
function withScheme(text) {
  if (SCHEME.test(text)) return text;
  if (MAIL.test(text)) return `mailto:${text}`;
  return HOST.test(text) ? `https://${text}` : "";
}
