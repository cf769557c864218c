"""aioquic, a QUIC and HTTP/3 library in Python: a client as its documentation shows one. Its HTTP/3 connection is used only if ALPN said h3."""
import asyncio
import os
import ssl

from aioquic.asyncio.client import connect
from aioquic.asyncio.protocol import QuicConnectionProtocol
from aioquic.h3.connection import H3_ALPN, H3Connection
from aioquic.h3.events import DataReceived, HeadersReceived
from aioquic.quic.configuration import QuicConfiguration
from aioquic.quic.events import ProtocolNegotiated, StreamReset

MANY = 30  # more than the 21 requests that the gateway grants at once
port = os.environ["PORT"]


class Client(QuicConnectionProtocol):
    def __init__(self, *rest, **named):
        super().__init__(*rest, **named)
        self.http = H3Connection(self._quic)
        self.agreed, self.open = None, {}

    def quic_event_received(self, event):
        if isinstance(event, ProtocolNegotiated):
            self.agreed = event.alpn_protocol
        if isinstance(event, StreamReset) and event.stream_id in self.open:
            self.open[event.stream_id]["done"].set_result(event.error_code)
        for told in self.http.handle_event(event):
            answer = self.open.get(told.stream_id)
            if answer is None:
                continue
            if isinstance(told, HeadersReceived):
                answer["status"] = dict(told.headers)[b":status"]
            elif isinstance(told, DataReceived):
                answer["content"] += told.data
            if told.stream_ended:
                answer["done"].set_result(None)

    async def ask(self, method, path, content=b"", length=None, stated=True):
        """Status and content; or, of a stream that the gateway has reset, the code. The length of content is stated, or another one, or none."""
        stream = self._quic.get_next_available_stream_id()
        answer = self.open[stream] = {"status": None, "content": b"", "done": asyncio.get_running_loop().create_future()}
        fields = {":method": method, ":scheme": "https", ":authority": f"localhost:{port}", ":path": path}
        if content and stated:
            fields["content-length"] = str(length or len(content))
        self.http.send_headers(stream, [(name.encode(), value.encode()) for name, value in fields.items()], end_stream=not content)
        if content:
            self.http.send_data(stream, content, end_stream=True)
        self.transmit()
        code = await asyncio.wait_for(answer["done"], 60)
        return (answer["status"], answer["content"]) if code is None else code


async def main():
    with open(os.environ["UPLOAD"], "rb") as file:
        sent = file.read()
    settings = QuicConfiguration(is_client=True, alpn_protocols=H3_ALPN, server_name="localhost", verify_mode=ssl.CERT_NONE)
    async with connect("127.0.0.1", int(port), configuration=settings, create_protocol=Client) as client:
        assert client.agreed == "h3", f"ALPN {client.agreed}"
        assert await client.ask("PUT", "/settings", sent) == (b"200", b"settings kept\n")
        assert await client.ask("GET", "/settings") == (b"200", sent), "the settings that came back differ"
        status, log = await client.ask("GET", "/log")
        assert status == b"200" and b"settings of 200000 bytes kept" in log, "the log does not tell of the upload"
        answers = await asyncio.gather(*(client.ask("GET", "/log") for _ in range(MANY)))
        assert answers == [(b"200", log)] * MANY, "some answer differs"
        code = await client.ask("PUT", "/settings", bytes(100000), length=200000)
        assert code == 0x10E, f"half an upload: {code}"
        for method in ("PUT", "POST", "PATCH"):
            code = await client.ask(method, "/settings", b"half", stated=False)
            assert code == 0x10B, f"a {method} without a length: {code}"
        assert await client.ask("GET", "/settings") == (b"200", sent), "half an upload changed the settings"
    print(
        f"PUT, GET /settings (same bytes), GET /log, {MANY} GETs at once, all on one connection: ALPN h3; "
        "a PUT that states 200000 bytes and ends after 100000: reset with 0x10e; "
        "a PUT, a POST and a PATCH without Content-Length: reset with 0x10b; settings unchanged"
    )


asyncio.run(main())
