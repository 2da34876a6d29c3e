#!/usr/bin/python3
"""A worker of the group $share/workers/jobs at each of several brokers. Usage: worker_of_brokers.py NAME HOST:PORT.., with another NAME for each worker."""
import os
import sys
import threading
import time
import traceback

import paho.mqtt.client as mqtt
from paho.mqtt.packettypes import PacketTypes
from paho.mqtt.properties import Properties


def say(line):
    print(line + "\n", end="", flush=True)  # in one piece, since each broker has a thread


def connected(client, broker, _flags, reason, _properties):
    say(f"connected to {broker}" if reason == 0 else f"refused by {broker}: {reason}")
    if reason == 0:
        client.subscribe("$share/workers/jobs", qos=1)


def disconnected(_client, broker, _reason, _properties=None):
    say(f"away: {broker}")


def subscribed(_client, broker, _identifier, reasons, _properties):
    if reasons[0].value >= 0x80:
        sys.exit(f"not a member at {broker}: {reasons[0]}")


def work(_client, _broker, job):
    say(f"begins {job.payload.decode()}")
    time.sleep(1)  # the work
    say(f"done {job.payload.decode()}")
    # Here paho sends the PUBACK, to the broker that the job came from. An exception ends the worker before it, and the job comes again.


def serve(broker):
    """Works for one broker, and connects again for as long as it is away."""
    client = mqtt.Client(name, protocol=mqtt.MQTTv5, userdata=broker)
    client.on_connect, client.on_disconnect, client.on_subscribe, client.on_message = connected, disconnected, subscribed, work
    client.reconnect_delay_set(min_delay=1, max_delay=5)
    properties = Properties(PacketTypes.CONNECT)
    properties.SessionExpiryInterval = 300  # seconds for which the broker keeps the session without a connection
    properties.ReceiveMaximum = 1  # one job of this broker at a time: the worker has as many at once as there are brokers
    host, port = broker.rsplit(":", 1)
    try:
        # The Keep Alive is longer than any job takes, since paho sends nothing during one; a broker whose machine has gone is noticed no sooner.
        client.connect_async(host, int(port), keepalive=60, clean_start=False, properties=properties)
        client.loop_forever(retry_first_connection=True)
    except BaseException:  # also sys.exit above, which would end this thread alone
        traceback.print_exc()
        os._exit(1)


name, *brokers = sys.argv[1:]
threads = [threading.Thread(target=serve, args=[broker]) for broker in brokers]
for thread in threads:
    thread.start()
