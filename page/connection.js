// The connection to the server: one WebSocket, on which each request waits for its answer. Where it is cut
// the page waits for the server, and goes on with the same one; another one, begun since, makes the browser
// load the page again.

import { carryOut } from './carrying_out.js';
import { pendingRequest, take } from './turns.js';

const CLOSED = new Error('the connection was closed');

/** Speaks to the server until the page is left. */
export async function stayConnected(page) {
  while (!page.isLeaving) {
    const fault = await speak(page).then(() => null, (error) => error);
    if (fault === null && (page.isLeaving || page.isFollowing)) continue;
    if (fault !== null && fault !== CLOSED) console.error('hmr:', fault);
    page.number = 0;
    page.plan = null;
    await serverIsBack(page);
  }
  location.reload();
}

// One connection, from hello to bye.
async function speak(page) {
  page.number = 0;
  const scheme = location.protocol === 'https:' ? 'wss' : 'ws';
  const socket = new WebSocket(`${scheme}://${location.host}/@hmr/ws?page=${page.id}`);
  page.cut = () => socket.close();
  const next = (text) => new Promise((done, refuse) => {
    socket.onopen = socket.onmessage = done;
    socket.onclose = () => refuse(CLOSED);
    if (socket.readyState >= WebSocket.CLOSING) refuse(CLOSED);
    else if (text !== undefined) socket.send(text);
  });
  try {
    await next();
    for (let isOver = false; !isOver;) {
      const request = await pendingRequest(page);
      page.isAsking = request.type === 'ask';
      const answered = next(JSON.stringify(request));
      answered.catch(() => {});           // where the connection is cut, that is told below
      // All is linked: nothing of it hangs on the answer.
      if (request.type === 'applied') await carryOut(page);
      const answer = JSON.parse((await answered).data);
      page.isAsking = false;
      page.browser.note(request, answer);
      await take(page, request, answer);
      if (answer.type === 'not-yet') await page.browser.pause(50);
      isOver = request.type === 'bye' || (answer.type === 'refused' && request.type === 'hello');
    }
  } finally {
    socket.close();
  }
}

async function serverIsBack(page) {
  for (let wait = 300; ; wait = Math.min(wait * 1.5, 3000)) {
    await page.browser.pause(wait);
    const told = await fetch('/@hmr/run').then((answer) => answer.json()).catch(() => null);
    page.isAway = told === null;
    page.show();
    if (page.isAway) continue;
    if (String(told.run) !== page.run) page.isLeaving = true;
    return;
  }
}
