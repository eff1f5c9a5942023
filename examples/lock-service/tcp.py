"""Carries messages between hosts by TCP."""
import asyncio
import socket

from failing import fail

PAUSE = 0.2  # seconds before it connects again
LOST = 5  # seconds without an answer, after which a connection is given up
MOST_WAITING = 1 << 20  # bytes that wait for a peer which takes none, after which no more are sent


class Tcp:
    """Each host connects to every other one, and what goes to that one goes through this connection alone. What is sent
    while it is down is lost, and so may be what was sent shortly before it broke: the host sends it again."""

    patience = 1  # seconds until a host sends again what was not acknowledged

    def __init__(self, options, host):
        self.options, self.host = options, host
        self.writers = {}

    async def run(self):
        try:
            server = await asyncio.start_server(self.hear, *self.options.peers[self.options.node - 1])
        except OSError as why:
            fail(f"cannot listen to the other hosts: {why}")
        await asyncio.gather(server.serve_forever(), *map(self.keep_connected, self.host.peers))

    def send(self, peer, message):
        writer = self.writers.get(peer)
        if writer and writer.transport.get_write_buffer_size() < MOST_WAITING:
            writer.write(message + b"\n")

    async def keep_connected(self, peer):
        while True:
            try:
                # By itself, the system tries for minutes, with ever longer pauses.
                connecting = asyncio.open_connection(*self.options.peers[peer - 1])
                reader, writer = await asyncio.wait_for(connecting, LOST)
                # So the connection ends if the other machine is gone without a word.
                writer.get_extra_info("socket").setsockopt(socket.IPPROTO_TCP, socket.TCP_USER_TIMEOUT, 1000 * LOST)
                self.writers[peer] = writer
                self.host.reached(peer)
                while await reader.read(1 << 16):
                    pass  # Nothing comes this way but the end.
            except (OSError, asyncio.TimeoutError):
                pass
            if peer in self.writers:
                self.writers.pop(peer).close()
            await asyncio.sleep(PAUSE)

    async def hear(self, reader, writer):
        """Takes what another host sends. Its last line may have been cut off."""
        writer.get_extra_info("socket").setsockopt(socket.SOL_SOCKET, socket.SO_KEEPALIVE, 1)
        try:
            while (line := await reader.readline()).endswith(b"\n"):
                self.host.heard(line)
        except (OSError, ValueError):
            pass
        writer.close()
