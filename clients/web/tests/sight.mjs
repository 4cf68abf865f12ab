// What can't be seen well of a page.

/** The least contrast of words on their ground (WCAG 2.2, 1.4.3), and of what shows a state. */
const CONTRAST = 4.5;

/** The words whose contrast is too low, each with it. */
export function dim(page) {
  return page.browser.run((least) => {
    const channels = (colour) => {
      const [red, green, blue, alpha = 1] = colour.match(/[\d.]+/g).map(Number);
      return { rgb: [red, green, blue], alpha };
    };
    const over = ({ rgb, alpha }, below) => rgb.map((part, index) => alpha * part + (1 - alpha) * below[index]);
    const ground = (element) => (element === null ? [255, 255, 255] : over(channels(getComputedStyle(element).backgroundColor), ground(element.parentElement)));
    const luminance = (rgb) => {
      const [red, green, blue] = rgb.map((part) => (part / 255 <= 0.04045 ? part / 255 / 12.92 : ((part / 255 + 0.055) / 1.055) ** 2.4));
      return 0.2126 * red + 0.7152 * green + 0.0722 * blue;
    };
    const found = [];
    for (const element of document.querySelectorAll("body *")) {
      const words = [...element.childNodes].filter(({ nodeType }) => nodeType === Node.TEXT_NODE).map(({ data }) => data.trim()).join("");
      if (words === "" || element.getClientRects().length === 0 || element.matches(".spoken *, :disabled, [inert] *, template, noscript")) continue;
      const below = ground(element);
      const [one, other] = [over(channels(getComputedStyle(element).color), below), below].map(luminance).sort((a, b) => b - a);
      const contrast = (one + 0.05) / (other + 0.05);
      if (contrast < least) found.push([words, element.className, contrast.toFixed(2)]);
    }
    return found;
  }, CONTRAST);
}

/** What isn't within the window, or has no room for its words. */
export function cutOff(page) {
  return page.browser.run(() => {
    const found = [];
    if (document.documentElement.scrollWidth > innerWidth) found.push(["the page", document.documentElement.scrollWidth]);
    for (const element of document.querySelectorAll("button, input, textarea, h1, h2, p, li, .editor, .daemon, .saved")) {
      if (element.getClientRects().length === 0 || element.matches(".spoken *")) continue;
      const { left, right } = element.getBoundingClientRect();
      if (left < 0 || right > innerWidth + 0.5) found.push([element.className || element.textContent, left, right]);
    }
    return found;
  });
}
