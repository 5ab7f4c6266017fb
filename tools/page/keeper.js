// A clock of the page's that runs on while the page is out of sight, where its own is slowed down.
setInterval(() => postMessage(0), 15000);
