/* A worker of the group $share/workers/jobs. Usage: worker HOST PORT NAME, with another NAME for each worker.
   gcc worker.c -o worker -lpaho-mqtt3a */
#include <stdio.h>
#include <stdlib.h>
#include <unistd.h>
#include <MQTTAsync.h>

static int was_connected;

static void refused(void *client, MQTTAsync_failureData5 *why) {
    fprintf(stderr, "not a member: 0x%02x\n", why->reasonCode);
    exit(1);
}

static void no_connection(void *client, MQTTAsync_failureData5 *why) {
    if (was_connected) return; /* paho tries again by itself */
    fprintf(stderr, "no connection: %s\n", MQTTAsync_strerror(why->code));
    exit(1);
}

static void connected(void *client, char *cause) {
    MQTTAsync_responseOptions options = MQTTAsync_responseOptions_initializer;
    options.onFailure5 = refused;
    was_connected = 1;
    MQTTAsync_subscribe(client, "$share/workers/jobs", 1, &options);
}

static int work(void *client, char *topic, int length, MQTTAsync_message *job) {
    printf("begins %.*s\n", job->payloadlen, (char *)job->payload);
    sleep(1); /* the work */
    printf("done %.*s\n", job->payloadlen, (char *)job->payload);
    MQTTAsync_freeMessage(&job);
    MQTTAsync_free(topic);
    return 1; /* Here paho sends the PUBACK. That of MQTTClient.h sends it before it calls. */
}

int main(int count, char **words) {
    MQTTAsync client;
    MQTTAsync_createOptions how = MQTTAsync_createOptions_initializer5;
    MQTTAsync_connectOptions options = MQTTAsync_connectOptions_initializer5;
    MQTTProperties properties = MQTTProperties_initializer;
    MQTTProperty expiry = {.identifier = MQTTPROPERTY_CODE_SESSION_EXPIRY_INTERVAL, .value.integer4 = 300}; /* seconds */
    MQTTProperty maximum = {.identifier = MQTTPROPERTY_CODE_RECEIVE_MAXIMUM, .value.integer2 = 1}; /* one job at a time */
    char address[256];
    if (count != 4) return 2;
    setlinebuf(stdout);
    snprintf(address, sizeof address, "tcp://%s:%s", words[1], words[2]);
    MQTTProperties_add(&properties, &expiry);
    MQTTProperties_add(&properties, &maximum);
    options.connectProperties = &properties;
    options.cleanstart = 0;
    options.automaticReconnect = 1;
    options.onFailure5 = no_connection;
    options.keepAliveInterval = 600; /* longer than any job takes, since paho sends nothing during one */
    MQTTAsync_createWithOptions(&client, address, words[3], MQTTCLIENT_PERSISTENCE_NONE, NULL, &how);
    MQTTAsync_setCallbacks(client, client, NULL, work, NULL);
    MQTTAsync_setConnected(client, client, connected);
    if (MQTTAsync_connect(client, &options) != MQTTASYNC_SUCCESS) return 1;
    for (;;) pause();
}
