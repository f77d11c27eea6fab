/* For tour.py: the texts on the page whose contrast with their ground is below 4.5, by the formula of WCAG 2. */
const linear = (part) => (part <= 0.04045 ? part / 12.92 : ((part + 0.055) / 1.055) ** 2.4);
const light = ([red, green, blue]) => 0.2126 * linear(red) + 0.7152 * linear(green) + 0.0722 * linear(blue);
const parts = (colour) => colour.match(/[\d.]+/g).map(Number);
const ground = (element) => {
  for (let at = element; at !== null; at = at.parentElement) {
    const found = parts(getComputedStyle(at).backgroundColor);
    if (found.length === 3 || found[3] > 0) {
      return found;
    }
  }
  return [255, 255, 255];
};
const contrast = (element) => {
  const both = [parts(getComputedStyle(element).color), ground(element)];
  const [less, more] = both.map((colour) => light(colour.map((part) => part / 255))).sort((one, other) => one - other);
  return (more + 0.05) / (less + 0.05);
};
const hasText = (element) => element.matches("input, select")
  || [...element.childNodes].some((node) => node.nodeType === Node.TEXT_NODE && node.data.trim() !== "");
return [...document.querySelectorAll("body *")]
  .filter((element) => element.checkVisibility() && hasText(element) && contrast(element) < 4.5)
  .map((element) => `${element.tagName} ${element.textContent.slice(0, 30)} ${contrast(element).toFixed(2)}`);
