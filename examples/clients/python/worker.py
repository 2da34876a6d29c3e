#!/usr/bin/python3
"""A worker of the group $share/workers/jobs. Usage: worker.py HOST PORT NAME, with another NAME for each worker."""
import sys
import time

import paho.mqtt.client as mqtt
from paho.mqtt.packettypes import PacketTypes
from paho.mqtt.properties import Properties


def connected(client, _userdata, _flags, _reason, _properties):
    client.subscribe("$share/workers/jobs", qos=1)


def subscribed(_client, _userdata, _identifier, reasons, _properties):
    if reasons[0].value >= 0x80:
        sys.exit(f"not a member: {reasons[0]}")


def work(_client, _userdata, job):
    print("begins", job.payload.decode(), flush=True)
    time.sleep(1)  # the work
    print("done", job.payload.decode(), flush=True)
    # Here paho sends the PUBACK. An exception ends the worker before it, and the job comes again.


host, port, name = sys.argv[1:]
client = mqtt.Client(name, protocol=mqtt.MQTTv5)
client.on_connect, client.on_subscribe, client.on_message = connected, subscribed, work
properties = Properties(PacketTypes.CONNECT)
properties.SessionExpiryInterval = 300  # seconds for which the broker keeps the session without a connection
properties.ReceiveMaximum = 1  # one job at a time
# The Keep Alive is longer than any job takes, since paho sends nothing during one.
client.connect(host, int(port), keepalive=600, clean_start=False, properties=properties)
client.loop_forever()
