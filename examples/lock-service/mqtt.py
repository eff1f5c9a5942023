"""Carries messages between hosts through an MQTT broker, with QoS 1 and sessions that last."""
import asyncio
import sys

from failing import fail

try:
    import paho.mqtt.client as paho
except ImportError:
    fail(
        f"--carrier mqtt needs the package paho-mqtt, which {sys.executable} does not have. On Debian,"
        " `apt install python3-paho-mqtt` installs it for /usr/bin/python3"
    )

SILENT = 5  # seconds without a connection, after which a host says so


class Mqtt:
    """Host I subscribes to the topic CLUSTER/I. The broker keeps what it has for a host that is down. What it loses
    nevertheless, the hosts send again."""

    patience = 2  # seconds until a host sends again what was not acknowledged

    def __init__(self, options, host):
        self.options, self.host = options, host
        self.own = f"{options.cluster}/{options.node}"
        # Since version 2, paho wants to know which version of its calls we mean: that of version 1.
        version = [paho.CallbackAPIVersion.VERSION1] if hasattr(paho, "CallbackAPIVersion") else []
        self.client = paho.Client(*version, client_id=self.own, clean_session=False)
        self.client.on_connect = self.on_connect
        self.client.on_message = self.on_message
        self.client.reconnect_delay_set(1, 1)
        # If the broker takes nothing, what would wait for it beyond this is dropped, and the host sends it again.
        self.client.max_queued_messages_set(10_000)

    async def run(self):
        self.loop = asyncio.get_running_loop()
        self.client.connect_async(*self.options.broker, keepalive=10)
        # paho has a thread of its own, which calls on_connect and on_message, and connects again whenever it has to.
        self.client.loop_start()
        await self.watch()

    async def watch(self):
        """Says if there is no connection for a while, once each time. paho itself tries in silence."""
        seconds = 0
        while True:
            await asyncio.sleep(1)
            seconds = 0 if self.client.is_connected() else seconds + 1
            if seconds == SILENT:
                where = "{}:{}".format(*self.options.broker)
                print(
                    f"host: node {self.options.node} has had no connection to the broker at {where} for {SILENT} seconds,"
                    " and goes on trying. On Debian, `apt install mosquitto` installs a broker, and `systemctl start"
                    " mosquitto` starts it; --broker tells where another one is",
                    file=sys.stderr,
                )

    def send(self, peer, message):
        # paho would keep what is sent without a connection. But the host sends it again.
        if self.client.is_connected():
            self.client.publish(f"{self.options.cluster}/{peer}", message, qos=1)

    def on_connect(self, client, _userdata, _flags, refused):
        if refused:
            print(f"host: the broker refuses the connection: {paho.connack_string(refused)}", file=sys.stderr)
            return
        client.subscribe(self.own, qos=1)
        for peer in self.host.peers:
            self.loop.call_soon_threadsafe(self.host.reached, peer)

    def on_message(self, _client, _userdata, message):
        self.loop.call_soon_threadsafe(self.host.heard, message.payload)
