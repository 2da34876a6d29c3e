#!/usr/bin/python3
"""Publishes each of its words as a job, and tries again while the queue is full. Usage: publisher.py HOST PORT JOB.."""
import sys
import time

import paho.mqtt.client as mqtt


class Publisher(mqtt.Client):
    """paho 1.6 keeps the Reason Code of a PUBACK to itself, so that a refused job looks like an accepted one: this reads it."""

    def _handle_pubackcomp(self, cmd):
        puback = self._in_packet["packet"]
        self.reason = puback[2] if len(puback) > 2 else 0
        return super()._handle_pubackcomp(cmd)


host, port, *jobs = sys.argv[1:]
client = Publisher(protocol=mqtt.MQTTv5)
client.connect(host, int(port))
client.loop_start()
for job in jobs:
    client.reason = 0x97
    while client.reason == 0x97:  # Quota exceeded: the queue of the group is full, or the broker drains
        client.publish("jobs", job, qos=1).wait_for_publish()
        print(f"{client.reason:#04x} {job}", flush=True)
        time.sleep(1 if client.reason == 0x97 else 0)
    if client.reason:  # 0x10: no group has this topic, and nobody has the job
        sys.exit(f"{job} was not accepted")
client.disconnect()
