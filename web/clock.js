// A clock for a tab that nobody sees: a browser lets the timers of such a page come once a minute, and a worker's go on.

let timer = 0;
onmessage = ({ data }) => {
  clearTimeout(timer);
  timer = setTimeout(() => postMessage(data), data);
};
