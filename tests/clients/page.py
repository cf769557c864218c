"""What a browser does, in a page of the gateway's own origin (its log), and how that is judged. Both browsers run the same script."""
import base64
import os
import signal
import sys

MANY = 30  # more than the 21 requests that the gateway grants at once
OVER = 1048577  # one byte more than an upload may have

# An async function; all of its answer is text and numbers, as both debugging protocols carry JSON.
SCRIPT = """async (upload, many, over) => {
  const text = bytes => { let s = ''; for (const b of bytes) s += String.fromCharCode(b); return btoa(s); };
  const get = path => fetch(path, {cache: 'no-store'});
  const settings = async () => text(new Uint8Array(await (await get('/settings')).arrayBuffer()));
  const put = await fetch('/settings', {method: 'PUT', body: Uint8Array.from(atob(upload), c => c.charCodeAt(0))});
  const kept = [await settings()];
  const log = await (await get('/log')).text();
  const all = await Promise.all([...Array(many)].map(() => get('/log').then(r => r.text().then(() => r.status))));
  const ours = performance.getEntriesByType('resource').filter(e => e.initiatorType === 'fetch');
  const seen = [...performance.getEntriesByType('navigation'), ...ours].map(e => e.nextHopProtocol);
  const large = await fetch('/settings', {method: 'PUT', body: new Uint8Array(over)}).then(r => String(r.status), String);
  kept.push(await settings());
  const refused = (await (await get('/log')).text()).split('refused with 0x010b').length - 1;
  return {status: [put.status, ...all], kept, log, seen, large, refused};
}"""

signal.signal(signal.SIGTERM, lambda *_: sys.exit("it took too long"))  # so that the browser is ended too


def upload():
    with open(os.environ["UPLOAD"], "rb") as file:
        return base64.b64encode(file.read()).decode()


def judge(sent, got):
    """What is to be said of the page's answer; an AssertionError where it is not as it must be."""
    assert got["status"] == [200] * (1 + MANY), f"statuses {got['status']}"
    assert got["kept"][0] == sent, "the settings that came back differ"
    assert "settings of 200000 bytes kept" in got["log"], "the log does not tell of the upload"
    assert got["seen"] == ["h3"] * (4 + MANY), f"nextHopProtocol {got['seen']}"
    assert got["large"].startswith("TypeError"), f"too large a PUT: {got['large']}"
    assert got["kept"][1] == sent, "too large a PUT changed the settings"
    return (
        f"page /log, PUT, GET /settings (same bytes), GET /log, {MANY} GETs at once: nextHopProtocol h3 for all {4 + MANY}; "
        f"a PUT of {OVER} bytes: '{got['large']}', {got['refused']} times refused with 0x010b, settings unchanged"
    )
