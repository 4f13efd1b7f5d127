// The texts of the page in sight whose contrast with what is behind them is below that of WCAG AA, each with its colours and its contrast: 4.5, or 3
// for large letters.
(() => {
  const pen = new OffscreenCanvas(1, 1).getContext("2d", { willReadFrequently: true });

  // A colour by red, green, blue and opacity, each from 0 to 1.
  function parts(colour) {
    pen.clearRect(0, 0, 1, 1);
    pen.fillStyle = colour;
    pen.fillRect(0, 0, 1, 1);
    return Array.from(pen.getImageData(0, 0, 1, 1).data, (part) => part / 255);
  }

  // A colour over another one, which has no holes.
  const over = ([red, green, blue, alpha], behind) => [red, green, blue].map((part, at) => part * alpha + behind[at] * (1 - alpha));

  function behind(element) {
    const own = element ? parts(getComputedStyle(element).backgroundColor) : parts("Canvas");
    return element && own[3] < 1 ? over(own, behind(element.parentElement)) : own.slice(0, 3);
  }

  function light(colour) {
    const [red, green, blue] = colour.map((part) => (part <= 0.04045 ? part / 12.92 : ((part + 0.055) / 1.055) ** 2.4));
    return 0.2126 * red + 0.7152 * green + 0.0722 * blue;
  }

  function contrast(one, other) {
    const [less, more] = [light(one), light(other)].sort((first, second) => first - second);
    return (more + 0.05) / (less + 0.05);
  }

  // What is wrong with a text in a style over an element, or nothing.
  function fault(text, element, style) {
    const size = parseFloat(style.fontSize), isLarge = size >= 24 || (size >= 18.66 && Number(style.fontWeight) >= 700);
    const back = behind(element), found = contrast(over(parts(style.color), back), back);
    return found < (isLarge ? 3 : 4.5) ? [`${text}: ${style.color} has ${found.toFixed(2)}`] : [];
  }

  const isSeen = (element) => element.checkVisibility({ visibilityProperty: true, opacityProperty: true }) && element.getClientRects().length > 0;
  const texts = [], walk = document.createTreeWalker(document.body, NodeFilter.SHOW_TEXT);
  while (walk.nextNode()) {
    const element = walk.currentNode.parentElement, text = walk.currentNode.data.trim();
    if (text && isSeen(element)) texts.push(...fault(text, element, getComputedStyle(element)));
  }
  for (const input of document.querySelectorAll("input[placeholder]")) {
    if (isSeen(input)) texts.push(...fault(input.placeholder, input, getComputedStyle(input, "::placeholder")));
  }
  return texts;
})();
