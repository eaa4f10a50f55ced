// Loads this page again once it, its style sheet, or a picture that it shows has changed. The preview of `publish --live` sends this script.
(() => {
  let since = document.currentScript.dataset.since, stream = null;
  const plain = (path) => { try { return decodeURIComponent(path); } catch { return path; } };
  const pathOf = (address) => plain(new URL(address, location.href).pathname.replace(/\/$/, "/index.html"));
  const shown = () => [location.href, ...Array.from(document.querySelectorAll("link[href], img[src]"), (it) => it.href || it.src)].map(pathOf);
  const hear = (event) => {
    const paths = JSON.parse(event.data), here = shown();
    since = event.lastEventId;
    if (paths === null || paths.map(plain).some((path) => here.includes(path))) location.reload();
  };
  // A page that nobody looks at holds no stream: a browser has only a few for each address.
  const follow = () => {
    if (document.hidden) {
      stream?.close();
      stream = null;
    } else if (stream === null) {
      stream = new EventSource("/.publish-live?since=" + since);
      stream.onmessage = hear;
    }
  };
  document.addEventListener("visibilitychange", follow);
  follow();
})();
