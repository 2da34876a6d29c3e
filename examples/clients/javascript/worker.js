// A worker of the group $share/workers/jobs. Usage: node worker.js HOST PORT NAME, with another NAME for each worker.
const mqtt = require('mqtt')
const { setTimeout } = require('timers/promises')
const [host, port, clientId] = process.argv.slice(2)

async function work (job) {
  if (job.toString() === 'bad') throw new Error('not to be done')
  console.log('begins', job.toString())
  await setTimeout(1000) // the work
  console.log('done', job.toString())
}

const client = mqtt.connect(`mqtt://${host}:${port}`, {
  protocolVersion: 5,
  clientId,
  clean: false,
  resubscribe: false,
  keepalive: 600, // longer than any job takes, since MQTT.js reads nothing during one
  properties: {
    sessionExpiryInterval: 300, // seconds for which the broker keeps the session without a connection
    receiveMaximum: 1 // one job at a time
  },
  // The PUBACK is sent once this calls `done`: with 0 for a job that is done, and with 0x80 for one that is refused.
  customHandleAcks: (topic, job, packet, done) => work(job).then(() => done(0), () => done(0x80))
})
client.on('connect', () => {
  client.subscribe('$share/workers/jobs', { qos: 1 }, (error, granted) => {
    if (granted && granted[0].qos < 0x80) return
    console.error('not a member', error || granted)
    process.exit(1)
  })
})
client.on('error', error => console.error(error.message))
