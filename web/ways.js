// Which way a page takes to the gateway: a WebSocket, or HTTP where that can't be had.

import { WebSocketTunnel } from './socket.js';
import { HttpTunnel } from './tunnel.js';

/**
 * What makes tunnels, one for each connection. Behind one whose WebSocket wasn't opened comes one over HTTP; and where
 * that one is opened, so that the gateway is there, and this page had no WebSocket before, all further ones are.
 * @param {{ socket: string, http: string }} addresses
 * @returns {() => import('./tunnel.js').Tunnel}
 */
export function waysTo({ socket, http }) {
  let hasSocket = false;
  let isOverHttp = false;
  let isTried = false;
  const overHttp = () => new HttpTunnel(http, () => { isOverHttp = !hasSocket; });
  const overSocket = () => new WebSocketTunnel(socket, (isThere) => {
    hasSocket ||= isThere;
    isTried = !isThere;
  });
  return () => {
    if (!isOverHttp && !isTried) return overSocket();
    isTried = false;
    return overHttp();
  };
}

/** The addresses beside a page, without the login that its own may have: no request can be made to one that has it. */
export function addressesBeside({ origin, href }) {
  const beside = (name) => origin + new URL(name, href).pathname;
  return { http: beside('tunnel'), socket: beside('websocket-tunnel').replace(/^http/, 'ws'), links: beside('links') };
}
