// What a person is told, in plain words.

const BY_CODE = {
  512: 'The gateway has no memory left.',
  513: 'The gateway is too busy for another session.',
  516: 'There is no such session. It may be over.',
  517: 'The gateway couldn’t name the session. Try again.',
  519: 'The host can’t be reached.',
  523: 'The gateway has closed the session: it has lost the host, or was told to stop, or the session was too long.',
  768: 'The gateway can’t read this request.',
  771: 'This session lets nobody join.',
  797: 'Too many viewers are in this session.',
};

const BY_STATUS = {
  0: 'The connection to the gateway is lost.',
  401: 'You have to log in.',
  403: 'You may not do this.',
  502: 'The gateway doesn’t answer.',
  503: 'The gateway doesn’t answer.',
  504: 'The gateway took too long to answer.',
};

/** What a refusal means. */
export function meaningOf({ code, status }) {
  return BY_CODE[code] ?? BY_STATUS[status] ?? `The gateway answered with status ${status}.`;
}

const ABSENT = 516;

// What it means that nothing is there. Who opens a session is told so only where the web server lets a login join alone.
function absent({ id, isLink = false }, wasOpen) {
  if (isLink) return 'This link leads nowhere any more: it is used up, was taken back, or its session is over.';
  if (id) return BY_CODE[ABSENT];
  return wasOpen ? 'The gateway no longer knows this view. It may have been started anew.' : 'No session can be opened with this login. Join one by its link.';
}

/** What ended a view that was requested, `wasOpen` where it was shown that it opened. @param {import('./view.js').End} end */
export function wordsOf(end, request, wasOpen) {
  switch (end.by) {
    case 'host': return 'The host has ended the session.';
    case 'error': return meaningOf({ code: end.code, status: 0 });
    case 'refusal': return end.code === ABSENT ? absent(request, wasOpen) : meaningOf(end);
    case 'left': return 'You have left the session.';
    case 'unreachable': return 'The connection to the gateway was lost, and this session can’t be reached from here any more.';
    case 'unreadable': return 'The gateway sent something that this page can’t read.';
    default: return 'This page has a fault, and can’t go on.';
  }
}

// The codes of a session that is over or lets nobody in: to ask again is no use.
const FOR_GOOD = [516, 523, 768, 771];

/** What can be tried behind an end: whether the same may work again, and the word for it. @param {import('./view.js').End} end */
export function wayOn(end, request) {
  const isOver = end.by === 'host' || end.by === 'error' || (end.by === 'refusal' && FOR_GOOD.includes(end.code));
  if (end.by === 'refusal' && end.status === 401 && end.code === 0) return { word: 'Log in', isAgain: true, isReload: true };
  if (request.id) return isOver ? { word: 'To the start', isAgain: false } : { word: 'Join again', isAgain: true };
  return { word: 'Open another', isAgain: false };
}

/** How the connection is, `types` where keys are sent. */
export function wordsOfLink(state, types) {
  const kept = types ? ' Keys are kept for 10 seconds.' : '';
  if (state === 'lost') return `The connection is lost. This page comes back by itself.${kept}`;
  return state === 'unstable' ? `The gateway doesn’t answer.${kept}` : '';
}

/** What became of what was typed while the connection was bad. */
export const LOST = 'Some keys may be lost.';
export const THROWN = 'What you typed was thrown away.';
export const BACK = 'The connection is back.';

/** Why a link couldn't be made or taken back. @param {import('./tunnel.js').Refusal} refusal @param {'make' | 'revoke'} what */
export function wordsOfLinks(refusal, what) {
  if (refusal.status === 404) return refusal.code === 0 ? 'Links can’t be made at this address.' : 'The gateway makes no links to this session.';
  if (refusal.code === 517) return 'The gateway couldn’t name the link. Try again.';
  return `${meaningOf(refusal)} ${what === 'make' ? 'No link was made.' : 'The link was not taken back.'}`;
}

/** Who may type, `session` being the ID by which others can join. The gateway tells nobody whose keys count, so of who
 *  joins it is said what is done, and what came of it. */
export function rightsOf({ id, readOnly }, session, isAnswered = true) {
  if (readOnly) return 'You look on. Your keys are not sent.';
  if (!id) return session ? 'You may type.' : 'You may type. Nobody else may join.';
  return isAnswered ? 'Your keys are sent.' : 'Your keys are sent, and nothing answers. This session may let you look on alone.';
}
