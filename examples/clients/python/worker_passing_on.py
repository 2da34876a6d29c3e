#!/usr/bin/python3
"""A worker of $share/workers/jobs that passes on to the topic `failed` what it cannot do. Usage: worker_passing_on.py HOST PORT NAME"""
import sys

import paho.mqtt.client as mqtt
from paho.mqtt.packettypes import PacketTypes
from paho.mqtt.properties import Properties


class Publisher(mqtt.Client):
    """As in publisher.py: paho 1.6 keeps the Reason Code of a PUBACK to itself."""

    def _handle_pubackcomp(self, cmd):
        puback = self._in_packet["packet"]
        self.reason = puback[2] if len(puback) > 2 else 0
        return super()._handle_pubackcomp(cmd)


def connected(client, _userdata, _flags, _reason, _properties):
    client.subscribe("$share/workers/jobs", qos=1)


def subscribed(_client, _userdata, _identifier, reasons, _properties):
    if reasons[0].value >= 0x80:
        sys.exit(f"not a member: {reasons[0]}")


def work(_client, _userdata, job):
    try:
        print("done", int(job.payload), flush=True)
    except ValueError as fault:
        why = Properties(PacketTypes.PUBLISH)
        why.UserProperty = ("fault", str(fault))
        publisher.publish("failed", job.payload, qos=1, properties=why).wait_for_publish()
        if publisher.reason:
            raise RuntimeError(f"not passed on: {publisher.reason:#04x}") from fault  # no PUBACK: the job comes again
    # Here paho sends the PUBACK of the job.


host, port, name = sys.argv[1:]
# A connection of its own, since that of the worker reads nothing while `work` runs.
publisher = Publisher(protocol=mqtt.MQTTv5)
publisher.connect(host, int(port))
publisher.loop_start()
client = mqtt.Client(name, protocol=mqtt.MQTTv5)
client.on_connect, client.on_subscribe, client.on_message = connected, subscribed, work
properties = Properties(PacketTypes.CONNECT)
properties.SessionExpiryInterval = 300
properties.ReceiveMaximum = 1
client.connect(host, int(port), keepalive=600, clean_start=False, properties=properties)
client.loop_forever()
