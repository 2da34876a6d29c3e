// Publishes each of its words as a job, and tries again while the queue is full. Usage: node publisher.js HOST PORT JOB..
const mqtt = require('mqtt')
const [host, port, ...jobs] = process.argv.slice(2)

const client = mqtt.connect(`mqtt://${host}:${port}`, { protocolVersion: 5 })
const publish = () => jobs.length ? client.publish('jobs', jobs[0], { qos: 1 }, () => {}) : client.end()

client.once('connect', publish)
// The Reason Code is read from the PUBACK itself: MQTT.js 4 tells its callback nothing of 0x10.
client.on('packetreceive', packet => {
  if (packet.cmd !== 'puback') return
  const reason = packet.reasonCode || 0
  console.log('0x' + reason.toString(16).padStart(2, '0'), jobs[0])
  if (reason === 0x97) return setTimeout(publish, 1000) // Quota exceeded: the queue of the group is full, or the broker drains
  const job = jobs.shift()
  if (reason === 0) return setImmediate(publish)
  console.error(`${job} was not accepted`) // 0x10: no group has this topic, and nobody has the job
  process.exit(1)
})
