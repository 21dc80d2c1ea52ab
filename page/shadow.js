// The one element that the client adds to a page: a shadow tree, so that neither style reaches the other.

const STYLE = `
  :host { all: initial }
  #badge { position: fixed; right: 12px; bottom: 12px; z-index: 2147483646; font: 12px system-ui; padding: 4px 10px;
    border: 0; border-radius: 12px; color: #fff; background: #287d4f; cursor: pointer }
  #badge.stale { background: #b35900 } #badge.fault { background: #b3261e } #badge.away { background: #666 }
  #list { position: fixed; right: 12px; bottom: 44px; z-index: 2147483646; margin: 0; padding: 10px 14px; list-style: none;
    font: 12px/1.5 system-ui; color: #eee; background: #222; border-radius: 8px; max-width: 60vw; max-height: 60vh; overflow: auto }
  #overlay { position: fixed; inset: 6vh 5vw auto; z-index: 2147483645; max-height: 80vh; overflow: auto; padding: 8px 20px;
    font: 14px/1.5 system-ui; color: #fee; background: #2a0d0b; border: 2px solid #b3261e; border-radius: 8px }
  [hidden] { display: none } #overlay > div { margin: 12px 0 } b { color: #ffb4ab } small { color: #ccc }
  pre { margin: 4px 0; white-space: pre-wrap; font: 14px/1.4 ui-monospace, monospace }
`;

let host = null;

/** The part of the shadow tree with this id. */
export function part(id) {
  if (host === null || !host.isConnected) build();
  return host.shadowRoot.getElementById(id);
}

/** An element with this text. */
export function element(tag, text) {
  return Object.assign(document.createElement(tag), { textContent: text });
}

function build() {
  host = document.createElement('hmr-page');
  const root = host.attachShadow({ mode: 'open' });
  const sheet = new CSSStyleSheet();      // a page's Content-Security-Policy lets it pass
  sheet.replaceSync(STYLE);
  root.adoptedStyleSheets = [sheet];
  for (const [tag, id] of [['div', 'overlay'], ['ul', 'list'], ['button', 'badge']]) {
    root.append(Object.assign(document.createElement(tag), { id, hidden: id !== 'badge' }));
  }
  document.documentElement.append(host);
  part('badge').onclick = () => part('list').toggleAttribute('hidden');
  part('overlay').onclick = hideOverlay;
  addEventListener('keydown', ({ key }) => { if (key === 'Escape') hideOverlay(); });
}

function hideOverlay() {
  part('overlay').hidden = true;
}
