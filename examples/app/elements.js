export function element(tag, text) {
  return Object.assign(document.createElement(tag), { textContent: text });
}
